/*
 * The header from C and from C++: that the library is of its version, that structs lie as the library lays them out, 01's worked frames (by
 * bytes, and by a node's own calls), each Result of ALIVE2, a whole handshake, one of real nodes, what is told of flags, empty runs, that a
 * refusal writes nothing, and that equal states are equal bytes. Compiled as C11 and as C++17.
 */
#include "birkenschuh.h"

#include <stdio.h>
#include <string.h>

static int failed;

#define CHECK(fact) \
    do { \
        if (!(fact)) { \
            printf("%s:%d: %s\n", __FILE__, __LINE__, #fact); \
            failed = 1; \
        } \
    } while (0)

static const uint8_t *bytes_of(const char *text) { return (const uint8_t *)text; }

#define RUN(text) bytes_of(text), sizeof(text) - 1

static const uint64_t FLAGS = BKS_REQUIRED_FLAGS;

/* No byte of a state is padding, and none needs an alignment. */
static void layout(void) {
    struct { char before; bks_registry r; } beside_r;
    struct { char before; bks_endpoint e; } beside_e;
    CHECK(BKS_MATCHES());
    CHECK(bks_abi() == 2 && bks_registry_size() == 25670 && bks_endpoint_size() == 9004);
    CHECK(sizeof(bks_registry) == BKS_REGISTRY_SIZE && sizeof beside_r == BKS_REGISTRY_SIZE + 1);
    CHECK(sizeof(bks_endpoint) == BKS_ENDPOINT_SIZE && sizeof beside_e == BKS_ENDPOINT_SIZE + 1);
    CHECK(sizeof(bks_started) == 16 && sizeof(bks_arrived) == 8 && sizeof(bks_written) == 16);
    CHECK(sizeof(bks_made) == 12 && offsetof(bks_made, missing) == 4 && offsetof(bks_made, lowest) == 8);
    CHECK(sizeof(bks_answered) == 32 && offsetof(bks_answered, written) == 16 && offsetof(bks_answered, missing) == 24);
    CHECK(offsetof(bks_answered, ended) == 12 && offsetof(bks_answered, lowest) == 28);
    CHECK(sizeof(bks_registration) == 404 && offsetof(bks_registration, port) == 388 && offsetof(bks_registration, creation) == 400);
    CHECK(sizeof(bks_alive2_reply) == 16 && offsetof(bks_alive2_reply, result) == 8 && offsetof(bks_alive2_reply, creation) == 12);
    CHECK(sizeof(bks_port2_reply) == 32 && offsetof(bks_port2_reply, port) == 8 && offsetof(bks_port2_reply, kind) == 14);
    CHECK(offsetof(bks_port2_reply, name_at) == 16 && offsetof(bks_port2_reply, extra_len) == 28);
    CHECK(sizeof(bks_names_line) == 12 && offsetof(bks_names_line, port) == 8);
    CHECK(sizeof(bks_names_reply) == 780 && offsetof(bks_names_reply, count) == 8 && offsetof(bks_names_reply, line) == 12);
    CHECK(sizeof(bks_slot) == 280 && offsetof(bks_slot, flags) == 16 && sizeof(bks_own) == 272 && offsetof(bks_own, name) == 13);
}

static bool is_reply(bks_written w, const uint8_t *out, const char *bytes, size_t len) {
    return w.refusal == 0 && w.written == len && memcmp(out, bytes, len) == 0;
}

#define IS(w, bytes) is_reply((w), out, (bytes), sizeof(bytes) - 1)

static void mapper(void) {
    static bks_registry r;
    static uint8_t out[BKS_REGISTRY_OUTPUT], pattern[BKS_REGISTRY_OUTPUT];
    const char alive2[] = "\x00\x11\x78\x11\x12\x4d\x00\x00\x06\x00\x05\x00\x04ride\x00\x00";
    memset(out, 0xa5, sizeof out);
    memset(pattern, 0xa5, sizeof pattern);

    CHECK(bks_registry_new(&r, 4369, 0) == 17);
    CHECK(bks_registry_new(&r, 4369, 4) == 0);
    CHECK(bks_registry_port(&r) == 4369 && bks_registry_next(&r) == 4);

    CHECK(bks_registry_request(&r, 1, NULL, 0, NULL, 0).refusal == 1);
    CHECK(bks_registry_request(&r, 1, NULL, 0, out, sizeof out).refusal == 3);
    CHECK(bks_registry_request(&r, 1, RUN("\x00\x01\x64"), out, sizeof out).refusal == 8);
    CHECK(memcmp(out, pattern, sizeof out) == 0);

    CHECK(IS(bks_registry_request(&r, 1, RUN(alive2), out, sizeof out), "\x76\x00\x00\x00\x00\x04"));
    CHECK(memcmp(out + 6, pattern, sizeof out - 6) == 0);
    CHECK(IS(bks_registry_request(&r, 2, RUN("\x00\x05zride"), out, sizeof out), "\x77\x00\x11\x12\x4d\x00\x00\x06\x00\x05\x00\x04ride\x00\x00"));
    CHECK(IS(bks_registry_request(&r, 2, RUN("\x00\x03zno"), out, sizeof out), "\x77\x01"));
    CHECK(IS(bks_registry_request(&r, 2, RUN(alive2), out, sizeof out), "\x76\x01\x00\x00\x00\x00"));

    bks_registration e = bks_registry_entry(&r, 0);
    CHECK(e.name_len == 4 && memcmp(e.name, "ride", 4) == 0 && e.name[4] == 0 && e.extra_len == 0);
    CHECK(e.port == 4370 && e.kind == 77 && e.protocol == 0 && e.highest == 6 && e.lowest == 5);
    CHECK(e.connection == 1 && e.creation == 4 && bks_registry_next(&r) == 5);
    CHECK(bks_registry_entry(&r, 1).name_len == 0 && bks_registry_entry(&r, BKS_PLACES).name_len == 0);

    bks_registry other = r;
    CHECK(!bks_registry_close(&r, 2) && memcmp(&r, &other, sizeof r) == 0);
    CHECK(bks_registry_close(&r, 1) && memcmp(&r, &other, sizeof r) != 0);
    CHECK(bks_registry_entry(&r, 0).name_len == 0);
    CHECK(bks_registry_new(&other, 4369, 5) == 0 && memcmp(&r, &other, sizeof r) == 0);
    CHECK(bks_registry_new(&other, 4370, 0) == BKS_REFUSED_ZERO_CREATION && memcmp(&r, &other, sizeof r) == 0);
}

/* ALIVE2 of the name with this number: two letters. */
static bks_written alive2_of(uint8_t name, bks_registry *r, uint32_t connection, uint8_t highest, uint8_t *out) {
    const uint8_t first = (uint8_t)('a' + name / 8), second = (uint8_t)('a' + name % 8);
    const uint8_t frame[] = {0, 15, BKS_ALIVE2_REQ, 0x11, 0x12, 77, 0, 0, highest, 0, 5, 0, 2, first, second, 0, 0};
    return bks_registry_request(r, connection, frame, sizeof frame, out, BKS_REGISTRY_OUTPUT);
}

/* Both forms of the reply tell this Result and creation 0, and nothing changes. */
static bool fails(uint8_t name, bks_registry *r, uint32_t connection, char result) {
    static uint8_t out[BKS_REGISTRY_OUTPUT];
    static bks_registry before;
    const char new_form[] = {BKS_ALIVE2_X_RESP, result, 0, 0, 0, 0}, old_form[] = {BKS_ALIVE2_RESP, result, 0, 0};
    before = *r;
    return is_reply(alive2_of(name, r, connection, 6, out), out, new_form, sizeof new_form)
        && is_reply(alive2_of(name, r, connection, 5, out), out, old_form, sizeof old_form) && memcmp(r, &before, sizeof before) == 0;
}

/* Connection n registers the name n, up to 63; names are tested first, then connections, then places. */
static void results(void) {
    static bks_registry r;
    static uint8_t out[BKS_REGISTRY_OUTPUT];
    CHECK(BKS_RESULT_REGISTERED == 0 && BKS_RESULT_NAME_IN_USE == 1 && BKS_RESULT_CONNECTION_REGISTERED == 2 && BKS_RESULT_NO_PLACE == 3);
    CHECK(bks_registry_new(&r, 4369, 1) == 0);
    for (uint8_t n = 0; n < BKS_PLACES - 1; n++) CHECK(alive2_of(n, &r, n, 6, out).written == 6 && out[1] == BKS_RESULT_REGISTERED);
    CHECK(fails(0, &r, 99, BKS_RESULT_NAME_IN_USE) && fails(0, &r, 0, BKS_RESULT_NAME_IN_USE) && fails(62, &r, 0, BKS_RESULT_NAME_IN_USE));
    CHECK(fails(64, &r, 0, BKS_RESULT_CONNECTION_REGISTERED) && fails(63, &r, 62, BKS_RESULT_CONNECTION_REGISTERED));

    CHECK(IS(alive2_of(63, &r, 63, 6, out), "\x76\x00\x00\x00\x00\x40") && bks_registry_next(&r) == 65);
    CHECK(fails(63, &r, 99, BKS_RESULT_NAME_IN_USE) && fails(63, &r, 63, BKS_RESULT_NAME_IN_USE) && fails(0, &r, 63, BKS_RESULT_NAME_IN_USE));
    CHECK(fails(64, &r, 63, BKS_RESULT_CONNECTION_REGISTERED) && fails(64, &r, 0, BKS_RESULT_CONNECTION_REGISTERED));
    CHECK(fails(64, &r, 99, BKS_RESULT_NO_PLACE) && fails(64, &r, 64, BKS_RESULT_NO_PLACE));
    CHECK(bks_registry_close(&r, 7) && IS(alive2_of(64, &r, 99, 5, out), "\x79\x00\x00\x03") && bks_registry_next(&r) == 66);
}

/* A node's three requests: 01's frames, no more room than they need, and nothing written where one is refused. */
static void requests(void) {
    uint8_t out[BKS_REQUEST_OUTPUT], pattern[BKS_REQUEST_OUTPUT], long_name[255], extra[129];
    memset(out, 0xa5, sizeof out);
    memset(pattern, 0xa5, sizeof pattern);
    memset(long_name, 'n', sizeof long_name);
    memset(extra, 7, sizeof extra);

    CHECK(bks_alive2_request(4370, 77, 0, 4, 5, NULL, 0, extra, 129, NULL, 0).refusal == BKS_REFUSED_BAD_LENGTH);
    CHECK(bks_alive2_request(4370, 77, 0, 4, 5, NULL, 0, extra, 128, NULL, 0).refusal == BKS_REFUSED_BAD_NAME);
    CHECK(bks_alive2_request(4370, 77, 0, 4, 5, RUN("ride"), extra, 128, NULL, 0).refusal == BKS_REFUSED_BAD_VERSIONS);
    CHECK(bks_alive2_request(4370, 77, 0, 6, 5, RUN("ride"), NULL, 0, out, 18).refusal == BKS_REFUSED_OUTPUT_TOO_SHORT);
    CHECK(bks_port_please2_request(RUN("a@b"), NULL, 0).refusal == BKS_REFUSED_BAD_NAME);
    CHECK(bks_port_please2_request(RUN("ride"), out, 6).refusal == BKS_REFUSED_OUTPUT_TOO_SHORT);
    CHECK(bks_names_request(out, 2).refusal == BKS_REFUSED_OUTPUT_TOO_SHORT);
    CHECK(memcmp(out, pattern, sizeof out) == 0);

    bks_written w = bks_alive2_request(4370, 77, 0, 6, 5, RUN("ride"), NULL, 0, out, 19);
    CHECK(IS(w, "\x00\x11\x78\x11\x12\x4d\x00\x00\x06\x00\x05\x00\x04ride\x00\x00") && memcmp(out + 19, pattern, sizeof out - 19) == 0);
    CHECK(IS(bks_port_please2_request(RUN("ride"), out, 7), "\x00\x05zride"));
    CHECK(IS(bks_names_request(out, 3), "\x00\x01n"));
    w = bks_alive2_request(4370, 77, 0, 6, 5, long_name, sizeof long_name, extra, 128, out, sizeof out);
    CHECK(w.refusal == 0 && w.written == BKS_REQUEST_OUTPUT);
}

static void replies(void) {
    bks_alive2_reply a = bks_read_alive2(RUN("\x76\x00\x00\x00\x00\x04"));
    CHECK(a.refusal == 0 && a.tag == BKS_ALIVE2_X_RESP && a.result == 0 && a.creation == 4);
    a = bks_read_alive2(RUN("\x79\x01\x00\x63"));
    CHECK(a.refusal == 0 && a.tag == BKS_ALIVE2_RESP && a.result == 1 && a.creation == 0);
    a = bks_read_alive2(RUN("\x76\x03\x00\x00\x00\x00"));
    CHECK(a.refusal == 0 && a.tag == BKS_ALIVE2_X_RESP && a.result == BKS_RESULT_NO_PLACE && a.creation == 0);
    a = bks_read_alive2(RUN("\x77\x01"));
    CHECK(a.refusal == BKS_REFUSED_UNKNOWN_TAG && a.tag == 0 && a.result == 0);
    CHECK(bks_read_alive2(NULL, 0).refusal == BKS_REFUSED_BAD_LENGTH && bks_read_alive2(RUN("\x76\x01")).refusal == BKS_REFUSED_BAD_LENGTH);

    const char found[] = "\x77\x00\x11\x12\x4d\x01\x00\x06\x00\x05\x00\x04ride\x00\x03xtr";
    bks_port2_reply p = bks_read_port2(RUN(found));
    CHECK(p.refusal == 0 && p.result == 0 && p.port == 4370 && p.kind == 77 && p.protocol == 1 && p.highest == 6 && p.lowest == 5);
    CHECK(p.name_len == 4 && memcmp(found + p.name_at, "ride", 4) == 0 && p.extra_len == 3 && memcmp(found + p.extra_at, "xtr", 3) == 0);
    p = bks_read_port2(bytes_of(found), sizeof found);
    CHECK(p.refusal == BKS_REFUSED_BAD_LENGTH && p.port == 0 && p.name_at == 0 && p.extra_at == 0);
    p = bks_read_port2(RUN("\x77\x01"));
    CHECK(p.refusal == 0 && p.result == 1 && p.port == 0 && p.name_at == 0 && p.name_len == 0);
    CHECK(bks_read_port2(RUN("\x76\x01")).refusal == BKS_REFUSED_UNKNOWN_TAG && bks_read_port2(NULL, 0).refusal == BKS_REFUSED_BAD_LENGTH);
}

static void names(void) {
    const char one[] = "\x00\x00\x11\x11name ride at port 4370\n", two[] = "\x00\x00\x11\x11name a at port 1\nname b at port 2\n";
    bks_names_reply n = bks_read_names(RUN(one));
    CHECK(n.refusal == 0 && n.port == 4369 && n.count == 1 && n.line[0].port == 4370 && n.line[0].at == 9 && n.line[0].len == 4);
    for (size_t i = 1; i < BKS_PLACES; i++) CHECK(n.line[i].at == 0 && n.line[i].len == 0 && n.line[i].port == 0);
    n = bks_read_names(RUN(two));
    CHECK(n.refusal == BKS_REFUSED_AMBIGUOUS && n.refusal == 20 && n.port == 0 && n.count == 0 && n.line[0].len == 0);
    n = bks_read_names(RUN("\x00\x00\x11\x11"));
    CHECK(n.refusal == 0 && n.port == 4369 && n.count == 0);
    CHECK(bks_read_names(bytes_of(one), sizeof one).refusal == BKS_REFUSED_BAD_LENGTH && bks_read_names(NULL, 0).refusal == BKS_REFUSED_BAD_LENGTH);
}

/* Beside any answer but 9 nothing is told of flags. */
static bks_answered flagless(bks_answered w) {
    CHECK(w.refusal != 9 && w.missing == 0 && w.lowest == 0);
    return w;
}

static void handshake(void) {
    static bks_endpoint a, b;
    uint8_t to_b[BKS_ENDPOINT_OUTPUT], to_a[BKS_ENDPOINT_OUTPUT];

    CHECK(bks_endpoint_new(&a, RUN("a"), FLAGS, 7).refusal == 6);
    CHECK(bks_endpoint_new(&a, RUN("a@b"), FLAGS, 7).refusal == 0);
    CHECK(bks_endpoint_new(&b, RUN("c@d"), FLAGS, 8).refusal == 0);
    CHECK(bks_endpoint_start(&a, NULL, 0, to_b, sizeof to_b).refusal == 6);
    CHECK(bks_endpoint_close(&a, 0) == 2);

    bks_started s = bks_endpoint_start(&a, RUN("c@d"), to_b, sizeof to_b);
    CHECK(s.refusal == 0 && s.slot == 0);
    CHECK(s.written == 20 && memcmp(to_b, "\x00\x12N\x00\x00\x00\x04\x03\x00\x01\x04\x00\x00\x00\x07\x00\x03" "a@b", 20) == 0);
    CHECK(bks_endpoint_start(&a, RUN("c@d"), to_a, sizeof to_a).refusal == 12);

    CHECK(bks_endpoint_arrive(&b).slot == 0);
    bks_arrived r = bks_endpoint_arrive(&b);
    CHECK(r.refusal == 0 && r.slot == 1);
    bks_answered w = flagless(bks_endpoint_message(&b, r.slot, to_b, s.written, 1234, NULL, 0, RUN("ck"), to_a, sizeof to_a));
    CHECK(w.refusal == 0 && w.stage == BKS_AWAITS_REPLY && w.freed == BKS_SLOTS && w.ended == 0);
    CHECK(w.written == 29 && memcmp(to_a, "\x00\x03sok", 5) == 0);

    bks_answered x = flagless(bks_endpoint_message(&a, s.slot, to_a, 5, 99, NULL, 0, RUN("ck"), to_b, sizeof to_b));
    CHECK(x.refusal == 0 && x.stage == BKS_AWAITS_CHALLENGE && x.written == 0);
    x = flagless(bks_endpoint_message(&a, s.slot, to_a + 5, w.written - 5, 99, RUN("ck"), RUN("other"), to_b, sizeof to_b));
    CHECK(x.refusal == 0 && x.stage == BKS_AWAITS_ACK && x.written == 23);
    w = flagless(bks_endpoint_message(&b, r.slot, to_b, x.written, 0, NULL, 0, RUN("ck"), to_a, sizeof to_a));
    CHECK(w.refusal == 0 && w.stage == BKS_CONNECTED && w.written == 19);
    x = flagless(bks_endpoint_message(&a, s.slot, to_a, w.written, 0, NULL, 0, RUN("ck"), to_b, sizeof to_b));
    CHECK(x.refusal == 0 && x.stage == BKS_CONNECTED && x.written == 0);

    bks_slot q = bks_endpoint_slot(&b, r.slot);
    CHECK(q.stage == BKS_CONNECTED && q.creation == 7 && q.challenge == 1234 && q.flags == FLAGS);
    CHECK(q.name_len == 3 && memcmp(q.name, "a@b", 3) == 0 && q.name[3] == 0);
    CHECK(bks_endpoint_slot(&b, BKS_SLOTS).stage == BKS_FREE);
    x = flagless(bks_endpoint_message(&a, s.slot, to_a, 19, 0, NULL, 0, RUN("ck"), to_b, sizeof to_b));
    CHECK(x.refusal == 10 && x.written == 0 && x.stage == 0 && x.freed == BKS_SLOTS && x.ended == 0);
    CHECK(bks_endpoint_close(&b, r.slot) == 0 && bks_endpoint_close(&b, r.slot) == 2);

    bks_own own = bks_endpoint_own(&a);
    CHECK(own.flags == FLAGS && own.creation == 7 && own.name_len == 3 && memcmp(own.name, "a@b", 3) == 0 && own.name[3] == 0);
}

/* Two real nodes (OTP 25; hs_01 of rust/tests/captures): an endpoint for each is lent what the other sent, and writes what its own node sent. */
#define NAME "\x00\x1aN\x00\x00\x00\x0d\x07\xdf\x7f\xbd\x6a\xf9\xc2\xda\x00\x0b" "b@127.0.0.1"
#define CHALLENGE "\x00\x1eN\x00\x00\x00\x0d\x07\xdf\x7f\xbd\x49\xa0\x47\x51\x6a\xf9\xc2\xda\x00\x0b" "a@127.0.0.1"
#define REPLY "\x00\x15r\xac\x60\xb7\x7d\x2e\x42\x3f\x09\x5b\x22\x96\x0a\x42\x5f\x54\xce\xb4\x19\x8e\x48"
#define ACK "\x00\x11" "a\xf8\x69\xdf\xa7\x08\x8c\xf2\xef\x43\x1e\x26\x1e\xaf\x85\x42\x62"
#define BYTES(text) text, sizeof(text) - 1

static bool goes_to(uint32_t stage, bks_endpoint *e, uint32_t challenge, const char *frame, size_t len, const char *bytes, size_t written) {
    uint8_t out[BKS_ENDPOINT_OUTPUT];
    bks_answered x = flagless(bks_endpoint_message(e, 0, bytes_of(frame), len, challenge, NULL, 0, RUN("monster"), out, sizeof out));
    return x.refusal == 0 && x.stage == stage && x.written == written && memcmp(out, bytes, written) == 0;
}

static void captured(void) {
    static bks_endpoint a, b;
    uint8_t out[BKS_ENDPOINT_OUTPUT];
    CHECK(bks_endpoint_new(&a, RUN("a@127.0.0.1"), UINT64_C(0xd07df7fbd), 1794753242).refusal == 0 && bks_endpoint_arrive(&a).refusal == 0);
    CHECK(bks_endpoint_new(&b, RUN("b@127.0.0.1"), UINT64_C(0xd07df7fbd), 1794753242).refusal == 0);
    bks_started s = bks_endpoint_start(&b, RUN("a@127.0.0.1"), out, sizeof out);
    CHECK(s.refusal == 0 && s.written == sizeof NAME - 1 && memcmp(out, NAME, sizeof NAME - 1) == 0);
    CHECK(goes_to(BKS_AWAITS_REPLY, &a, 1235240785, BYTES(NAME), BYTES("\x00\x03sok" CHALLENGE)));
    CHECK(goes_to(BKS_AWAITS_CHALLENGE, &b, 0, BYTES("\x00\x03sok"), BYTES("")));
    CHECK(goes_to(BKS_AWAITS_ACK, &b, 2892019581, BYTES(CHALLENGE), BYTES(REPLY)));
    CHECK(goes_to(BKS_CONNECTED, &a, 0, BYTES(REPLY), BYTES(ACK)) && goes_to(BKS_CONNECTED, &b, 0, BYTES(ACK), BYTES("")));
}

/* A slot that a message frees is told, answered or refused, and then holds what a free one holds. */
static void ended(void) {
    static bks_endpoint e, fresh;
    uint8_t out[BKS_ENDPOINT_OUTPUT];
    CHECK(bks_endpoint_new(&e, RUN("a@b"), FLAGS, 7).refusal == 0 && bks_endpoint_new(&fresh, RUN("a@b"), FLAGS, 7).refusal == 0);
    CHECK(memcmp(&e, &fresh, sizeof e) == 0);
    CHECK(bks_endpoint_arrive(&e).slot == 0 && memcmp(&e, &fresh, sizeof e) != 0);
    bks_answered x = flagless(bks_endpoint_message(&e, 0, RUN("\x00\x01x"), 1, NULL, 0, RUN("ck"), out, sizeof out));
    CHECK(x.refusal == BKS_REFUSED_UNKNOWN_TAG && x.ended == 1 && x.freed == BKS_SLOTS && memcmp(&e, &fresh, sizeof e) == 0);
    x = flagless(bks_endpoint_message(&e, 0, RUN("\x00\x01x"), 1, NULL, 0, RUN("ck"), out, sizeof out));
    CHECK(x.refusal == BKS_REFUSED_SLOT_NOT_TAKEN && x.ended == 0);
    CHECK(bks_endpoint_arrive(&e).slot == 0);
    x = flagless(bks_endpoint_message(&e, 0, RUN("\x00\x12N\x00\x00\x00\x04\x03\x00\x01\x04\x00\x00\x00\x07\x00\x03" "a@b"), 1, NULL, 0, RUN("ck"), out, sizeof out));
    CHECK(x.refusal == 0 && x.stage == BKS_FREE && x.ended == 1 && x.written == 14 && memcmp(out, "\x00\x0csnot_allowed", 14) == 0);
    CHECK(memcmp(&e, &fresh, sizeof e) == 0);
}

#include "flags.h"

int main(void) {
    uint8_t digest[16];
    bks_md5(NULL, 0, digest);
    CHECK(memcmp(digest, "\xd4\x1d\x8c\xd9\x8f\x00\xb2\x04\xe9\x80\x09\x98\xec\xf8\x42\x7e", 16) == 0);
    CHECK(bks_node_name_ok(RUN("ride")) && !bks_node_name_ok(RUN("a@b")) && !bks_node_name_ok(NULL, 0));
    CHECK(bks_full_name_ok(RUN("a@b")) && !bks_full_name_ok(RUN("ride")) && !bks_full_name_ok(NULL, 0));
    CHECK(bks_compare(RUN("a@b"), RUN("a@bc")) == -1 && bks_compare(RUN("b@a"), RUN("a@z")) == 1);
    CHECK(bks_compare(RUN("a@b"), RUN("a@b")) == 0 && bks_compare(RUN("\xff"), RUN("\x01")) == 1 && bks_compare(NULL, 0, RUN("a")) == -1);
    layout();
    mapper();
    results();
    requests();
    replies();
    names();
    handshake();
    captured();
    ended();
    flags();
    puts(failed ? "header: failed" : "header: ok");
    return failed;
}
