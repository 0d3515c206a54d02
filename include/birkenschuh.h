/*
 * Birkenschuh for hosts in C and C++: the EPMD mapper (registry), a node's end of it (requests and replies), the distribution handshake
 * (endpoint), MD5 and the name rules.
 *
 * Every function here is one of the proved library; docs/HOSTS.md is the chapter for hosts.
 *
 * The state is the host's: bytes that it lends to each call by a pointer, changed where they lie. They need no alignment, hold no padding and
 * no pointer, and may be copied, compared and stored. A state is good if bks_registry_new or bks_endpoint_new made it and only calls changed
 * it. Frames, names, cookies and outputs are lent as a pointer and a length; null with length 0 is an empty run. An output must not overlap
 * anything else that is lent. No call keeps a pointer, allocates or blocks.
 *
 * A refusal is the number of the papers' table, and 0 is none. A refused call writes no output byte.
 */
#ifndef BIRKENSCHUH_H
#define BIRKENSCHUH_H

#include <stdbool.h>
#include <stddef.h>
#include <stdint.h>

#ifdef __cplusplus
extern "C" {
#endif

/* ---- the version of this header, and of the library that was linked */

#define BKS_ABI 2

/* How many bytes the states have. */
#define BKS_REGISTRY_SIZE 25670
#define BKS_ENDPOINT_SIZE 9004

uint32_t bks_abi(void);
size_t bks_registry_size(void);
size_t bks_endpoint_size(void);

/* Whether header and library belong together: to be asked once, before a state is made. */
#define BKS_MATCHES() (bks_abi() == BKS_ABI && bks_registry_size() == BKS_REGISTRY_SIZE && bks_endpoint_size() == BKS_ENDPOINT_SIZE)

/* ---- limits */

/* How many output bytes a call has to be lent. A request needs no more than its own frame has, and none is longer than this. */
#define BKS_REGISTRY_OUTPUT 17604
#define BKS_ENDPOINT_OUTPUT 300
#define BKS_REQUEST_OUTPUT 398

/* How many registrations a registry has room for, and how many connections an endpoint. */
#define BKS_PLACES 64
#define BKS_SLOTS 32

/* ---- refusals */

enum {
    BKS_REFUSED_OUTPUT_TOO_SHORT = 1,
    BKS_REFUSED_SLOT_NOT_TAKEN = 2,
    BKS_REFUSED_NOT_A_FRAME = 3,
    BKS_REFUSED_UNKNOWN_TAG = 4,
    BKS_REFUSED_BAD_LENGTH = 5,
    BKS_REFUSED_BAD_NAME = 6,
    BKS_REFUSED_BAD_VERSIONS = 7,
    BKS_REFUSED_NOT_SERVED = 8,
    BKS_REFUSED_BAD_FLAGS = 9,
    BKS_REFUSED_ALREADY_CONNECTED = 10,
    BKS_REFUSED_BAD_COOKIE = 11,
    BKS_REFUSED_PEER_TAKEN = 12,
    BKS_REFUSED_NO_FREE_SLOT = 13,
    BKS_REFUSED_UNKNOWN_STATUS = 14,
    BKS_REFUSED_WRONG_DIGEST = 15,
    BKS_REFUSED_DECLINED = 16,
    BKS_REFUSED_ZERO_CREATION = 17,
    BKS_REFUSED_AMBIGUOUS = 20
};

/* ---- tags: the third byte of a frame, and the first of a mapper's reply */

enum {
    BKS_ALIVE2_REQ = 120,
    BKS_PORT_PLEASE2_REQ = 122,
    BKS_NAMES_REQ = 110,
    BKS_ALIVE2_X_RESP = 118,
    BKS_ALIVE2_RESP = 121,
    BKS_PORT2_RESP = 119,
    BKS_TAG_NAME = 'N', /* the name message and the challenge message */
    BKS_TAG_STATUS = 's',
    BKS_TAG_REPLY = 'r',
    BKS_TAG_ACK = 'a'
};

/*
 * Result, the second byte of a reply to ALIVE2: the first of 1, 2 and 3 that holds, and 0 if none does. With 1 to 3 nothing changes, and the
 * creation told is 0. Erlang's own epmd tells 1 whatever the reason.
 */
enum {
    BKS_RESULT_REGISTERED = 0,
    BKS_RESULT_NAME_IN_USE = 1, /* by this connection or another */
    BKS_RESULT_CONNECTION_REGISTERED = 2,
    BKS_RESULT_NO_PLACE = 3
};

/* ---- the mapper */

typedef struct { uint8_t bytes[BKS_REGISTRY_SIZE]; } bks_registry;

typedef struct { uint32_t refusal; size_t written; } bks_written;

/* A registration; all zero where a place is free or there is no such place. The bytes behind a length are zero. */
typedef struct {
    uint8_t name[255];
    uint8_t name_len;
    uint8_t extra[128];
    uint8_t extra_len;
    uint8_t kind;
    uint8_t protocol;
    uint16_t port;
    uint16_t highest;
    uint16_t lowest;
    uint32_t connection;
    uint32_t creation;
} bks_registration;

/* Makes a registry; 17 where the first creation is 0, and then nothing is written. */
uint32_t bks_registry_new(bks_registry *r, uint16_t port, uint32_t first_creation);

/* One frame from a connection: the reply is written from the first output byte on. */
bks_written bks_registry_request(bks_registry *r, uint32_t connection, const uint8_t *frame, size_t frame_len, uint8_t *out, size_t out_len);

/* The end of a connection: whether it had a registration, which is then gone. */
bool bks_registry_close(bks_registry *r, uint32_t connection);

/* What a host may see of a registry: a place, the next creation, the port. */
bks_registration bks_registry_entry(const bks_registry *r, uint32_t place);
uint32_t bks_registry_next(const bks_registry *r);
uint16_t bks_registry_port(const bks_registry *r);

/* ---- a node's end of the mapper */

/*
 * Writing a request: from the first output byte on, and the bytes behind keep their contents. Refused, in this order: extra over 128 bytes
 * with 5, a name that a node may not register under with 6, versions with 7, an output shorter than the frame with 1.
 */
bks_written bks_alive2_request(uint16_t port, uint8_t kind, uint8_t protocol, uint16_t highest, uint16_t lowest,
                               const uint8_t *name, size_t name_len, const uint8_t *extra, size_t extra_len,
                               uint8_t *out, size_t out_len);
bks_written bks_port_please2_request(const uint8_t *name, size_t name_len, uint8_t *out, size_t out_len);
bks_written bks_names_request(uint8_t *out, size_t out_len);

/*
 * Reading a reply, which has no length before it: all that the mapper sent is lent. Nothing at all is 5, a wrong tag 4, any other wrong
 * length 5. A result above 0 is the mapper's error. Beside a refusal every other field is 0, and so are those behind result beside an error.
 */

/*
 * tag tells which reply it was, BKS_ALIVE2_X_RESP or BKS_ALIVE2_RESP; the latter has a short creation. result is one of BKS_RESULT_.. if the
 * mapper is this library's.
 */
typedef struct { uint32_t refusal; uint32_t tag; uint32_t result; uint32_t creation; } bks_alive2_reply;

/* The node's fields, none of them examined. Name and extra are parts of the reply, counted from its first byte. */
typedef struct {
    uint32_t refusal;
    uint32_t result;
    uint16_t port;
    uint16_t highest;
    uint16_t lowest;
    uint8_t kind;
    uint8_t protocol;
    uint32_t name_at;
    uint32_t name_len;
    uint32_t extra_at;
    uint32_t extra_len;
} bks_port2_reply;

/* A line of a NAMES reply: a name, as a part of the reply counted from its first byte, and its port. */
typedef struct { uint32_t at; uint32_t len; uint16_t port; } bks_names_line;

/* The mapper's own port, and how many lines there are; those behind are zero. */
typedef struct { uint32_t refusal; uint16_t port; uint32_t count; bks_names_line line[BKS_PLACES]; } bks_names_reply;

bks_alive2_reply bks_read_alive2(const uint8_t *reply, size_t len);
bks_port2_reply bks_read_port2(const uint8_t *reply, size_t len);

/*
 * 5 where there is no reading: under 4 bytes, an own port above 65535, or text that is not at most 64 lines. 20 where there is more than
 * one, since a name may hold newlines: then ask for a name by PORT_PLEASE2. A reply cut behind a line looks like a whole one: lend it when
 * the mapper has closed. Needs 38 KB of stack.
 */
bks_names_reply bks_read_names(const uint8_t *reply, size_t len);

/* ---- the handshake */

typedef struct { uint8_t bytes[BKS_ENDPOINT_SIZE]; } bks_endpoint;

/* A slot's stage. */
enum {
    BKS_FREE = 0,
    BKS_AWAITS_NAME = 1,
    BKS_AWAITS_ALIVE = 2,
    BKS_AWAITS_REPLY = 3,
    BKS_AWAITS_STATUS = 4,
    BKS_AWAITS_CHALLENGE = 5,
    BKS_AWAITS_ACK = 6,
    BKS_CONNECTED = 7
};

/* The flags that an endpoint, and every peer, must have. Real nodes ask for more: see docs/INTEROP.md. */
#define BKS_REQUIRED_FLAGS UINT64_C(0x403000104)

/* Their bits by the protocol's names, and the bit that must be clear. */
enum {
    BKS_DFLAG_EXTENDED_REFERENCES = 2,
    BKS_DFLAG_EXTENDED_PIDS_PORTS = 8,
    BKS_DFLAG_HANDSHAKE_23 = 24,
    BKS_DFLAG_UNLINK_ID = 25,
    BKS_DFLAG_NAME_ME = 33,
    BKS_DFLAG_V4_NC = 34
};

/*
 * Beside 9 missing is how many required flags are clear, 1 to 5, and lowest the lowest of them by its bit; or missing is 0 and lowest 33:
 * none is clear, but bit 33 is set. Beside every other answer both are 0. So in bks_answered.
 */
typedef struct { uint32_t refusal; uint32_t missing; uint32_t lowest; } bks_made;

/* Beside a refusal slot and written are 0. */
typedef struct { uint32_t refusal; uint32_t slot; size_t written; } bks_started;
typedef struct { uint32_t refusal; uint32_t slot; } bks_arrived;

/*
 * stage is the slot's new one, and freed another slot that the message freed, or 32; beside a refusal they are 0 and 32. ended is 1 if the
 * slot named is free now by this message, answered or refused, and otherwise 0: then close its connection, and do not call bks_endpoint_close.
 */
typedef struct { uint32_t refusal; uint32_t stage; uint32_t freed; uint32_t ended; size_t written; uint32_t missing; uint32_t lowest; } bks_answered;

/* A slot's record: what is not yet recorded, and all of a free slot, is zero. The bytes behind the name's length are zero. */
typedef struct {
    uint32_t stage;
    uint32_t creation;
    uint32_t challenge;
    uint64_t flags;
    uint8_t name_len;
    uint8_t name[255];
} bks_slot;

/* What an endpoint was made with. The bytes behind the name's length are zero. */
typedef struct {
    uint64_t flags;
    uint32_t creation;
    uint8_t name_len;
    uint8_t name[255];
} bks_own;

/* Makes an endpoint; 6 for a bad name, then 9 for bad flags, and then nothing is written. */
bks_made bks_endpoint_new(bks_endpoint *e, const uint8_t *name, size_t name_len, uint64_t flags, uint32_t creation);

/* Starts towards a full name: takes the lowest free slot and writes the name message. */
bks_started bks_endpoint_start(bks_endpoint *e, const uint8_t *name, size_t name_len, uint8_t *out, size_t out_len);

/* A connection has come in: takes the lowest free slot. */
bks_arrived bks_endpoint_arrive(bks_endpoint *e);

/* Frees a taken slot: to be called when its connection has ended. 0, or 2 where the slot was free. */
uint32_t bks_endpoint_close(bks_endpoint *e, uint32_t slot);

/*
 * One frame on a slot. The challenge has to be fresh and not to be guessed; it is used where the answer holds a challenge of ours. The
 * cookie is the peer's own where that has any bytes, and the standard one otherwise. Digests are Erlang/OTP's: MD5 of the cookie and,
 * behind it, the challenge in decimal.
 */
bks_answered bks_endpoint_message(bks_endpoint *e, uint32_t slot, const uint8_t *frame, size_t frame_len, uint32_t challenge,
                                  const uint8_t *own, size_t own_len, const uint8_t *standard, size_t standard_len,
                                  uint8_t *out, size_t out_len);

/* What a host may see of an endpoint: a slot's record (from 32 on that of a free one), and its own name, flags and creation. */
bks_slot bks_endpoint_slot(const bks_endpoint *e, uint32_t slot);
bks_own bks_endpoint_own(const bks_endpoint *e);

/* ---- MD5 and names */

/* Writes RFC 1321's digest of a text, sixteen bytes. */
void bks_md5(const uint8_t *text, size_t len, uint8_t *digest);

/* Whether a node may register under these bytes: 1 to 255 of them, well-formed UTF-8, no zero byte, no "@". */
bool bks_node_name_ok(const uint8_t *name, size_t len);

/* Whether these bytes are a full name: 3 to 255 of them, exactly one "@", neither first nor last. */
bool bks_full_name_ok(const uint8_t *name, size_t len);

/* How two names compare, as unsigned bytes and a proper prefix being less: -1, 0 or 1. */
int8_t bks_compare(const uint8_t *a, size_t a_len, const uint8_t *b, size_t b_len);

#ifdef __cplusplus
}
#endif

#endif
