/* Loads against the static library: what the request gives for table T, bytes beyond the records, a load in parts, what
 * is refused and that nothing is written then, and what the records draw. */
#include "calls.h"

typedef milchkompass_load_reply reply;

enum { ROOM = 120, FILL = 0xee };

/* The load gives these three numbers. */
static void gives(reply r, uint8_t refusal, uint32_t state, size_t count, const char *what) {
    expect(r.refusal == refusal && r.state == state && r.count == count, what);
}

/* The buffer is what it was from a place on. */
static bool kept(const uint8_t *out, size_t from, size_t to) {
    for (; from < to; from++)
        if (out[from] != FILL) return false;
    return true;
}

static void vectors(void) {
    const uint8_t one[] = {4, 2, 0x60, 0, 0, 0, 4, 2, 0x6c, 2, 0, 0}, ones[] = {1, 2, 0x3c, 2, 0x80, 0};
    uint8_t out[14];
    memset(out, FILL, sizeof out);
    gives(milchkompass_load(T, 1, out, 6), 0, 0x60180001, 1, "seed 1, one record");
    expect(memcmp(out, one, 6) == 0 && kept(out, 6, sizeof out), "seed 1, one record: the buffer");
    gives(milchkompass_load(T, 1, out, sizeof out), 0, 0x6c1b0001, 2, "seed 1, two records");
    expect(memcmp(out, one, sizeof one) == 0 && kept(out, 12, sizeof out), "seed 1, two records: the buffer");
    gives(milchkompass_load(T, UINT32_MAX, out, 6), 0, 0x3ff7ffff, 1, "seed ffffffff");
    expect(memcmp(out, ones, sizeof ones) == 0, "seed ffffffff: the buffer");
}

/* As many records as fit, the bytes beyond them stay, and a load from the state goes on where the first ended. */
static void lengths(void) {
    uint8_t whole[ROOM], out[ROOM];
    reply all = milchkompass_load(T, 7, whole, ROOM);
    for (size_t length = 0; length <= ROOM; length++) {
        memset(out, FILL, sizeof out);
        reply first = milchkompass_load(T, 7, out, length);
        size_t end = 6 * first.count;
        expect(first.refusal == 0 && first.count == length / 6, "the count");
        expect(memcmp(out, whole, end) == 0 && kept(out, end, sizeof out), "the bytes, and those beyond");
        gives(milchkompass_load(T, first.state, out + end, ROOM - end), 0, all.state, all.count - first.count, "the rest");
        expect(memcmp(out, whole, ROOM) == 0, "both parts");
    }
    gives(milchkompass_load(T, 7, out, 5), 0, 7, 0, "no record fits");
}

/* The load is refused with this number, and the buffer keeps its bytes. */
static void refused(uint8_t number, const uint8_t *table, size_t length, uint32_t seed, const char *what) {
    uint8_t out[ROOM];
    memset(out, FILL, sizeof out);
    gives(milchkompass_load(table, length, seed, out, sizeof out), number, 0, 0, what);
    expect(kept(out, 0, sizeof out), what);
}

static void refusals(void) {
    const uint8_t other_main[] = {1, 1, 0, 0}, other_mode[] = {1, 0, 4, 0};
    refused(MILCHKOMPASS_SEED_ZERO, T, 0, "the seed 0");
    for (uint32_t seed = 0; seed < 3; seed++) {
        refused(MILCHKOMPASS_TABLE_LENGTH, table_t, sizeof table_t - 1, seed, "1 before 32");
        refused(MILCHKOMPASS_TABLE_LENGTH, table_t, 0, seed, "no table");
        refused(MILCHKOMPASS_TABLE_CONTENT, other_main, sizeof other_main, seed, "2 before 32");
        refused(MILCHKOMPASS_TABLE_CONTENT, other_mode, sizeof other_mode, seed, "a mode above 3");
    }
}

/* No record is refused with 3, 4 or 9, played one after the other. */
static void drawn(void) {
    uint8_t out[60000];
    session s = MILCHKOMPASS_SESSION_FRESH;
    reply made = milchkompass_load(T, 1, out, sizeof out);
    expect(made.count == sizeof out / 6, "ten thousand records");
    for (size_t at = 0; at < sizeof out; at += 6) {
        answer a = milchkompass_play(T, &s, out + at, sizeof out - at);
        expect(a.refusal != 3 && a.refusal != 4 && a.refusal != 9, "what a record draws");
    }
}

int main(void) {
    expect(milchkompass_abi() == MILCHKOMPASS_ABI, "the library's number");
    vectors();
    lengths();
    refusals();
    drawn();
    printf("c, load: %d checks, %d wrong\n", checks, failures);
    return failures != 0;
}
