/*
 * A part of header.c: what is told of flags that are not good, in making, in a name message and in a challenge, and that nothing is
 * told beside any other answer.
 */
/* Flags, and how many required ones are missing and the lowest, or 0 and 33; of good ones 0 and 0. */
static const struct { uint64_t flags; uint32_t missing, lowest; } TOLD[] = {
    {UINT64_C(0x403000104), 0, 0}, {UINT64_C(0xfffffffdffffffff), 0, 0}, {UINT64_C(0xfffffffc03000104), 0, 0},
    {UINT64_C(0x403000100), 1, 2}, {UINT64_C(0x403000004), 1, 8}, {UINT64_C(0x402000104), 1, 24}, {UINT64_C(0x401000104), 1, 25},
    {UINT64_C(0x003000104), 1, 34}, {0, 5, 2}, {UINT64_C(0xfffffff9fcfffefb), 5, 2}, {UINT64_C(0x001000104), 2, 25},
    {UINT64_C(0x603000104), 0, 33}, {UINT64_C(0xffffffffffffffff), 0, 33}, {UINT64_C(0x203000104), 1, 34}, {UINT64_C(0x603000100), 1, 2},
};

static bool is_told(uint32_t refusal, uint32_t missing, uint32_t lowest, size_t i) {
    return refusal == (TOLD[i].lowest == 0 ? 0 : 9) && missing == TOLD[i].missing && lowest == TOLD[i].lowest;
}

/* These flags in a name message of c@d or, behind a start and ok, in a challenge of c@d. */
static void flags_in_message(size_t i, bool challenge) {
    static bks_endpoint e, fresh;
    uint8_t frame[24] = {0, 18, 'N'}, out[BKS_ENDPOINT_OUTPUT], pattern[BKS_ENDPOINT_OUTPUT];
    for (int at = 0; at < 8; at++) frame[3 + at] = (uint8_t)(TOLD[i].flags >> (56 - 8 * at));
    memcpy(frame + (challenge ? 15 : 11), "\x00\x00\x00\x01\x00\x03" "c@d", 9);
    if (challenge) frame[1] = 22;
    CHECK(bks_endpoint_new(&e, RUN("a@b"), FLAGS, 7).refusal == 0);
    fresh = e;
    if (challenge) {
        CHECK(bks_endpoint_start(&e, RUN("c@d"), out, sizeof out).refusal == 0);
        CHECK(flagless(bks_endpoint_message(&e, 0, RUN("\x00\x03sok"), 1, NULL, 0, RUN("ck"), out, sizeof out)).refusal == 0);
    } else {
        CHECK(bks_endpoint_arrive(&e).refusal == 0);
    }
    memset(out, 0xa5, sizeof out);
    memset(pattern, 0xa5, sizeof pattern);
    bks_answered x = bks_endpoint_message(&e, 0, frame, frame[1] + 2u, 1, NULL, 0, RUN("ck"), out, sizeof out);
    CHECK(is_told(x.refusal, x.missing, x.lowest, i) && x.freed == BKS_SLOTS && x.ended == (x.refusal == 0 ? 0 : 1));
    bool nothing = x.written == 0 && x.stage == 0 && memcmp(out, pattern, sizeof out) == 0 && memcmp(&e, &fresh, sizeof e) == 0;
    CHECK(nothing == (x.refusal != 0));
}

/* One message on slot 0, which awaits a name, a status or, behind a good name message, a reply; its refusal. */
static uint32_t refused(char awaits, const char *frame, size_t len, size_t room) {
    static bks_endpoint e;
    uint8_t out[BKS_ENDPOINT_OUTPUT];
    const char name[] = "\x00\x12N\x00\x00\x00\x04\x03\x00\x01\x04\x00\x00\x00\x07\x00\x03" "c@d";
    CHECK(bks_endpoint_new(&e, RUN("a@b"), FLAGS, 7).refusal == 0);
    CHECK((awaits == 's' ? bks_endpoint_start(&e, RUN("c@d"), out, sizeof out).refusal : bks_endpoint_arrive(&e).refusal) == 0);
    if (awaits == 'r') CHECK(flagless(bks_endpoint_message(&e, 0, RUN(name), 1, NULL, 0, RUN("ck"), out, sizeof out)).refusal == 0);
    return flagless(bks_endpoint_message(&e, 0, bytes_of(frame), len, 1, NULL, 0, RUN("ck"), out, room)).refusal;
}

#define REFUSED(awaits, frame) refused(awaits, frame, sizeof(frame) - 1, BKS_ENDPOINT_OUTPUT)

/* Bad flags too, where a refusal that comes before 9 is told. */
static void other_refusals(void) {
    CHECK(refused('N', "\x00\x01N", 3, 299) == 1 && REFUSED('N', "\x00\x01") == 3 && REFUSED('N', "\x00\x01x") == 4);
    CHECK(REFUSED('N', "\x00\x11N\0\0\0\0\0\0\0\0\0\0\0\7\0\3" "c@") == 5);
    CHECK(REFUSED('N', "\x00\x12N\0\0\0\0\0\0\0\0\0\0\0\7\0\3" "c@@") == 6);
    CHECK(REFUSED('s', "\x00\x04snok") == 16 && REFUSED('s', "\x00\x03sko") == 14);
    CHECK(REFUSED('r', "\x00\x15r" "1234" "0123456789abcdef") == 15);
}

static void flags(void) {
    static bks_endpoint e, pattern;
    CHECK(BKS_DFLAG_EXTENDED_REFERENCES == 2 && BKS_DFLAG_EXTENDED_PIDS_PORTS == 8 && BKS_DFLAG_HANDSHAKE_23 == 24);
    CHECK(BKS_DFLAG_UNLINK_ID == 25 && BKS_DFLAG_NAME_ME == 33 && BKS_DFLAG_V4_NC == 34 && BKS_REQUIRED_FLAGS == UINT64_C(0x403000104));
    memset(&pattern, 0xa5, sizeof pattern);
    for (size_t i = 0; i < sizeof TOLD / sizeof TOLD[0]; i++) {
        e = pattern;
        bks_made m = bks_endpoint_new(&e, RUN("a"), TOLD[i].flags, 7);
        CHECK(m.refusal == 6 && m.missing == 0 && m.lowest == 0 && memcmp(&e, &pattern, sizeof e) == 0);
        m = bks_endpoint_new(&e, RUN("a@b"), TOLD[i].flags, 7);
        CHECK(is_told(m.refusal, m.missing, m.lowest, i) && (memcmp(&e, &pattern, sizeof e) == 0) == (m.refusal != 0));
        flags_in_message(i, false);
        flags_in_message(i, true);
    }
    other_refusals();
}
