/*
 * How much stack the calls need: each runs on a stack of its own that was painted before, and the lowest byte that lost its paint tells how
 * deep the call went (what starts the stack included, some 32 bytes). Fails if one needs more than LIMIT, or bks_read_names, which keeps
 * tables over the whole reply, more than NAMES_LIMIT. docs/HOSTS.md says the figures.
 */
#define _XOPEN_SOURCE 700
#include "birkenschuh.h"

#include <stdio.h>
#include <string.h>
#include <ucontext.h>

enum { LIMIT = 8192, NAMES_LIMIT = 65536, STACK = 1 << 18, PAINT = 0xa5 };

static uint8_t painted[STACK];
static ucontext_t back, there;
static int telling, failed;

/* The calls that share a limit, and which of them went deepest. */
struct depth {
    size_t limit, deepest;
    const char *call;
};
static struct depth most = {LIMIT, 0, ""}, reading_names = {NAMES_LIMIT, 0, ""};

/* How many bytes have lost their paint, counted from the top, where a stack begins. */
static size_t used_bytes(void) {
    size_t untouched = 0;
    while (untouched < sizeof painted && painted[untouched] == PAINT) untouched++;
    return sizeof painted - untouched;
}

static void measure_in(struct depth *of, const char *call, void (*run)(void)) {
    memset(painted, PAINT, sizeof painted);
    getcontext(&there);
    there.uc_stack.ss_sp = painted;
    there.uc_stack.ss_size = sizeof painted;
    there.uc_link = &back;
    makecontext(&there, run, 0);
    swapcontext(&back, &there);
    size_t used = used_bytes();
    if (telling) printf("%6zu  %s\n", used, call);
    if (used > of->deepest) {
        of->deepest = used;
        of->call = call;
    }
}

static void measure(const char *call, void (*run)(void)) { measure_in(&most, call, run); }

/* What the calls are lent, and what they give. */
static bks_registry r;
static bks_endpoint a, b;
static uint8_t frame[700], out[BKS_REGISTRY_OUTPUT], to_b[BKS_ENDPOINT_OUTPUT], to_a[BKS_ENDPOINT_OUTPUT], digest[16], text[4096], name[255];
static uint8_t reply[BKS_REGISTRY_OUTPUT], extra[128];
static size_t frame_len, part_at, reply_len;
static uint32_t connection, slot, refusal;
static bks_written written;
static bks_answered answered;
static bks_started started;
static bks_arrived arrived;
static bks_registration entry;
static bks_alive2_reply registered;
static bks_port2_reply found;
static bks_names_reply listed;
static bks_slot seen;
static bks_own own;
static bool told;
static bks_made made;
static uint8_t cookie[255];

static void nothing(void) {}
static void registry_new(void) { refusal = bks_registry_new(&r, 4369, 1); }
static void request(void) { written = bks_registry_request(&r, connection, frame, frame_len, out, sizeof out); }
static void registry_close(void) { told = bks_registry_close(&r, connection); }
static void registry_entry(void) { entry = bks_registry_entry(&r, 63); }
static void registry_next(void) { refusal = bks_registry_next(&r); }
static void registry_port(void) { refusal = bks_registry_port(&r); }
static void alive2_request(void) {
    written = bks_alive2_request(4370, 77, 0, 6, 5, name, sizeof name, extra, sizeof extra, out, sizeof out);
}
static void port_please2_request(void) { written = bks_port_please2_request(name, sizeof name, out, sizeof out); }
static void names_request(void) { written = bks_names_request(out, sizeof out); }
static void read_alive2(void) { registered = bks_read_alive2(reply, reply_len); }
static void read_port2(void) { found = bks_read_port2(reply, reply_len); }
static void read_names(void) { listed = bks_read_names(reply, reply_len); }
static void endpoint_new(void) { made = bks_endpoint_new(&a, name, sizeof name, BKS_REQUIRED_FLAGS, 7); }
static void start(void) { started = bks_endpoint_start(&a, (const uint8_t *)"c@d", 3, to_b, sizeof to_b); }
static void arrive(void) { arrived = bks_endpoint_arrive(&b); }
static void message_a(void) {
    answered = bks_endpoint_message(&a, slot, to_a + part_at, frame_len, 4294967295u, NULL, 0, cookie, sizeof cookie, to_b, sizeof to_b);
}
static void message_b(void) {
    answered = bks_endpoint_message(&b, slot, to_b, frame_len, 4294967295u, NULL, 0, cookie, sizeof cookie, to_a, sizeof to_a);
}
static void endpoint_close(void) { refusal = bks_endpoint_close(&b, slot); }
static void endpoint_slot(void) { seen = bks_endpoint_slot(&b, slot); }
static void endpoint_own(void) { own = bks_endpoint_own(&a); }
static void md5(void) { bks_md5(text, sizeof text, digest); }
static void node_name_ok(void) { told = bks_node_name_ok(name, sizeof name); }
static void full_name_ok(void) { told = bks_full_name_ok(name, sizeof name); }
static void compare(void) { refusal = (uint32_t)bks_compare(name, sizeof name, name, sizeof name); }

static void expect(bool fact, const char *what) {
    if (!fact) {
        printf("stack: not as expected: %s\n", what);
        failed = 1;
    }
}

/* ALIVE2 with a name of 255 bytes and 128 extra bytes. */
static void alive2(uint32_t of) {
    static const uint8_t head[] = {0x01, 0x8c, 120, 0x11, 0x12, 77, 0, 0, 6, 0, 5, 0, 255};
    memset(frame, 'n', sizeof frame);
    memcpy(frame, head, sizeof head);
    frame[13] = (uint8_t)('a' + of / 8);
    frame[14] = (uint8_t)('a' + of % 8);
    frame[268] = 0;
    frame[269] = 128;
    frame_len = 398;
    connection = of;
}

/* What the mapper has just written is the reply to be read. */
static void take_reply(void) {
    memcpy(reply, out, written.written);
    reply_len = written.written;
}

/* Each reason not to register, in a full registry. */
static void results(void) {
    alive2(BKS_PLACES - 1);
    connection = BKS_PLACES;
    measure("bks_registry_request: ALIVE2, Result 1", request);
    expect(written.written == 6 && out[1] == BKS_RESULT_NAME_IN_USE, "a name in use");
    alive2(BKS_PLACES);
    connection = BKS_PLACES - 1;
    measure("bks_registry_request: ALIVE2, Result 2", request);
    expect(written.written == 6 && out[1] == BKS_RESULT_CONNECTION_REGISTERED, "a connection that has a registration");
    connection = BKS_PLACES;
    measure("bks_registry_request: ALIVE2, Result 3", request);
    expect(written.written == 6 && out[1] == BKS_RESULT_NO_PLACE, "no place");
}

static void mapper(void) {
    measure("bks_registry_new", registry_new);
    for (uint32_t i = 0; i < BKS_PLACES; i++) {
        alive2(i);
        if (i < BKS_PLACES - 1) request();
    }
    measure("bks_registry_request: ALIVE2, the last place", request);
    expect(written.written == 6 && out[1] == 0, "registered");
    take_reply();
    measure("bks_read_alive2", read_alive2);
    expect(registered.tag == BKS_ALIVE2_X_RESP && registered.creation == BKS_PLACES, "a creation");
    results();
    alive2(BKS_PLACES - 1);
    frame[0] = 1, frame[1] = 0, frame[2] = 122;
    memmove(frame + 3, frame + 13, 255);
    frame_len = 258;
    measure("bks_registry_request: PORT_PLEASE2, last of 64", request);
    expect(written.written == 14 + 255 + 128 && out[1] == 0, "found");
    take_reply();
    measure("bks_read_port2", read_port2);
    expect(found.refusal == 0 && found.name_len == 255 && found.extra_len == 128, "a node");
    frame[257] = 'x';
    measure("bks_registry_request: PORT_PLEASE2, none", request);
    expect(written.written == 2, "not found");
    frame[0] = 0, frame[1] = 1, frame[2] = 110, frame_len = 3;
    measure("bks_registry_request: NAMES, 64 of 255 bytes", request);
    expect(written.written == BKS_REGISTRY_OUTPUT - 64, "64 names, ports of four digits");
    take_reply();
    measure_in(&reading_names, "bks_read_names: 64 of 255 bytes", read_names);
    expect(listed.refusal == 0 && listed.count == BKS_PLACES, "64 lines");
    frame_len = 2;
    measure("bks_registry_request: refused", request);
    expect(written.refusal == BKS_REFUSED_NOT_A_FRAME, "no frame");
    measure("bks_registry_entry", registry_entry);
    expect(entry.connection == 63 && entry.extra_len == 128, "the last place");
    measure("bks_registry_next", registry_next);
    measure("bks_registry_port", registry_port);
    connection = 63;
    measure("bks_registry_close", registry_close);
    expect(told, "closed");
}

/* The same line as many times as said. */
static void repeat(const char *line, size_t times) {
    reply_len = 4;
    memset(reply, 0, reply_len);
    for (; times > 0; times--) {
        memcpy(reply + reply_len, line, strlen(line));
        reply_len += strlen(line);
    }
}

static void client(void) {
    memset(name, 'n', sizeof name);
    measure("bks_alive2_request", alive2_request);
    expect(written.written == BKS_REQUEST_OUTPUT, "the longest request");
    measure("bks_port_please2_request", port_please2_request);
    expect(written.written == 258, "the longest name");
    measure("bks_names_request", names_request);
    expect(written.written == 3, "a request for names");
    repeat("name a at port 1\n", 959);
    measure_in(&reading_names, "bks_read_names: more than one reading", read_names);
    expect(listed.refusal == BKS_REFUSED_AMBIGUOUS, "959 pieces, 15 to a line at most");
    repeat("name at port 3\n", 1173);
    measure_in(&reading_names, "bks_read_names: no reading", read_names);
    expect(listed.refusal == BKS_REFUSED_BAD_LENGTH, "too many lines even joined");
}

static void handshake(void) {
    memset(name, 'a', sizeof name);
    name[100] = '@';
    measure("bks_endpoint_new", endpoint_new);
    expect(made.refusal == 0, "made");
    bks_endpoint_new(&b, (const uint8_t *)"c@d", 3, BKS_REQUIRED_FLAGS, 8);
    measure("bks_endpoint_start", start);
    expect(started.refusal == 0 && started.slot == 0, "started");
    measure("bks_endpoint_arrive", arrive);
    expect(arrived.refusal == 0 && arrived.slot == 0, "arrived");
    slot = 0, frame_len = started.written;
    measure("bks_endpoint_message: name", message_b);
    expect(answered.stage == BKS_AWAITS_REPLY, "ok");
    size_t both = answered.written;
    frame_len = 5, part_at = 0;
    measure("bks_endpoint_message: status", message_a);
    expect(answered.stage == BKS_AWAITS_CHALLENGE, "status");
    frame_len = both - 5, part_at = 5;
    measure("bks_endpoint_message: challenge", message_a);
    expect(answered.stage == BKS_AWAITS_ACK, "challenge");
    frame_len = answered.written, part_at = 0;
    measure("bks_endpoint_message: reply", message_b);
    expect(answered.stage == BKS_CONNECTED, "reply");
    frame_len = answered.written;
    measure("bks_endpoint_message: acknowledgement", message_a);
    expect(answered.stage == BKS_CONNECTED, "acknowledgement");
    measure("bks_endpoint_message: refused, kept", message_a);
    expect(answered.refusal == BKS_REFUSED_ALREADY_CONNECTED && !answered.ended, "kept");
    measure("bks_endpoint_slot", endpoint_slot);
    expect(seen.stage == BKS_CONNECTED && seen.name_len == 255, "connected");
    measure("bks_endpoint_own", endpoint_own);
    expect(own.name_len == 255, "own");
    /* the same peer again: alive, and true */
    static bks_endpoint again;
    bks_endpoint_new(&again, name, sizeof name, BKS_REQUIRED_FLAGS, 9);
    frame_len = bks_endpoint_start(&again, (const uint8_t *)"c@d", 3, to_b, sizeof to_b).written;
    slot = bks_endpoint_arrive(&b).slot;
    measure("bks_endpoint_message: name of a connected peer", message_b);
    expect(answered.stage == BKS_AWAITS_ALIVE, "alive");
    memcpy(to_b, "\x00\x05strue", 7), frame_len = 7;
    measure("bks_endpoint_message: alive answer", message_b);
    expect(answered.stage == BKS_AWAITS_REPLY, "true");
    measure("bks_endpoint_message: refused, freed", message_b);
    expect(answered.refusal == BKS_REFUSED_UNKNOWN_TAG && answered.ended, "freed");
    slot = 0;
    measure("bks_endpoint_close", endpoint_close);
    expect(refusal == 0, "closed");
}

/* No flags at all, in a name message and in a challenge. */
static void bad_flags(void) {
    memcpy(to_b, "\x00\x12N\0\0\0\0\0\0\0\0\0\0\0\1\0\3e@f", 20), frame_len = 20, slot = bks_endpoint_arrive(&b).slot;
    measure("bks_endpoint_message: name, refused with 9", message_b);
    expect(answered.refusal == BKS_REFUSED_BAD_FLAGS && answered.missing == 5 && answered.ended, "flags of a name");
    slot = bks_endpoint_start(&a, (const uint8_t *)"e@f", 3, to_b, sizeof to_b).slot;
    memcpy(to_a, "\x00\x03sok", 5), frame_len = 5, message_a();
    memcpy(to_a, "\x00\x16N\0\0\0\0\0\0\0\0\0\0\0\1\0\0\0\1\0\3e@f", 24), frame_len = 24;
    measure("bks_endpoint_message: challenge, refused with 9", message_a);
    expect(answered.refusal == BKS_REFUSED_BAD_FLAGS && answered.missing == 5 && answered.ended, "flags of a challenge");
}

static void all(void) {
    measure("(a call of nothing)", nothing);
    mapper();
    client();
    handshake();
    bad_flags();
    measure("bks_md5, 4096 bytes", md5);
    measure("bks_node_name_ok", node_name_ok);
    measure("bks_full_name_ok", full_name_ok);
    measure("bks_compare", compare);
}

static void judge(const struct depth *of) {
    if (of->deepest > of->limit) failed = 1;
    printf("stack: %s: %zu bytes at most (%s), %zu allowed\n", failed ? "failed" : "ok", of->deepest, of->call, of->limit);
}

int main(void) {
    memset(cookie, 'c', sizeof cookie);
    all(); /* the loader binds what is called for the first time, on the caller's stack */
    most.deepest = reading_names.deepest = 0, telling = 1;
    all();
    judge(&most);
    judge(&reading_names);
    return failed;
}
