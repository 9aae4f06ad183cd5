/* Tests of what reads recordings: the length of a record, its call, and whether two lists of calls end alike. */
#include "calls.h"

#define BYTES(...) ((const uint8_t[]){__VA_ARGS__}), sizeof((const uint8_t[]){__VA_ARGS__})

#define LAUNCH 1, 0, 0, 0, 0, 0
#define START_1 2, 1, 0, 0, 0, 0
#define START_1_MARKED 2, 1, 0x40, 0, 0, 0
#define BACK 4, 0, 0, 0, 0, 0

/* A table with a launch mode above 3. */
#define BAD_MODE BYTES(1, 0, 4, 0)

/* A restore of P10's image. */
#define RESTORE_P10 6, 0, 0, 0, 0, 13, 3, 1, 3, 0, 2, 1, 0, 0, 7, 2, 2, 8, 0x42

static void lengths(void) {
    static const uint8_t left[] = {BACK, BACK, 4};
    static const uint8_t restore[] = {RESTORE_P10, BACK};
    expect(milchkompass_record_length(left, 0) == 0, "no record");
    expect(milchkompass_record_length(left, 5) == 5, "a cut record");
    expect(milchkompass_record_length(left, 6) == 6, "a record");
    expect(milchkompass_record_length(left, sizeof left) == 6, "the first of three records");
    expect(milchkompass_record_length(restore, sizeof restore) == 6, "kind 6, as the player reads it");
    expect(milchkompass_call_length(left, 0) == 0, "no call");
    expect(milchkompass_call_length(left, 5) == 5, "a cut call");
    expect(milchkompass_call_length(left, sizeof left) == 6, "the first of three calls");
    expect(milchkompass_call_length(restore, sizeof restore) == 19, "a restore and its image");
    expect(milchkompass_call_length(restore, 18) == 18, "a restore with a cut image");
}

static void played(void) {
    session s = MILCHKOMPASS_SESSION_FRESH;
    ANSWERS(milchkompass_play(T, &s, BYTES(LAUNCH, BACK)), 0, 0, 0, 1, 1, 1, 0, E8, 0);
    ANSWERS(milchkompass_play(T, &s, BYTES(START_1_MARKED)), 0, 1, 0, 2, 1, 1, 0, E8, 1);
    ANSWERS(milchkompass_play(T, &s, BYTES(START_1)), 0, 1, 0, 2, 1, 1, 1, E8, 0);
    ANSWERS(milchkompass_play(T, &s, BYTES(BACK)), 0, 0, 0, 1, 1, 1, 1, E8, 0);
    REFUSED(9, p10, milchkompass_play(T, &s, BYTES(4, 0, 0, 0, 0)));
    REFUSED(9, p10, milchkompass_play(T, &s, BYTES(0, 0, 0, 0, 0, 0)));
    REFUSED(9, p10, milchkompass_play(T, &s, BYTES(RESTORE_P10)));
    REFUSED(22, p10, milchkompass_play(T, &s, BYTES(LAUNCH)));
    REFUSED(2, p10, milchkompass_play(BAD_MODE, &s, BYTES(BACK)));
    REFUSED(9, p10, milchkompass_play(BAD_MODE, &s, BYTES(9, 0, 0, 0, 0, 0)));
}

static void called(void) {
    session s = MILCHKOMPASS_SESSION_FRESH;
    ANSWERS(milchkompass_play_call(T, &s, BYTES(LAUNCH)), 0, 0, 0, 1, 1, 1, 0, E8, 0);
    ANSWERS(milchkompass_play_call(T, &s, BYTES(RESTORE_P10, BACK)), 0, 3, 3, 1, 2, 2, 0, E8, 0);
    expect(same(s, p10), "a restore from a list of calls");
    REFUSED(9, p10, milchkompass_play_call(T, &s, BYTES(6, 0, 0, 0, 0, 1)));
    REFUSED(5, p10, milchkompass_play_call(T, &s, BYTES(6, 0, 0, 0, 0, 0)));
    REFUSED(9, p10, milchkompass_play_call(T, &s, BYTES(7, 0, 0, 0, 0, 0)));
    REFUSED(9, p10, milchkompass_play_call(T, &s, BYTES(4, 0)));
}

static void ends(uint8_t refusal, bool alike, milchkompass_ending got, const char *what) {
    expect(got.refusal == refusal && got.alike == alike, what);
}

static void endings(void) {
    ends(0, true, milchkompass_same_ending(T, BYTES(LAUNCH, START_1, BACK), BYTES(LAUNCH)), "alike after a Back");
    ends(0, false, milchkompass_same_ending(T, BYTES(LAUNCH, START_1), BYTES(LAUNCH, START_1_MARKED)), "apart in the mark");
    ends(0, true, milchkompass_same_ending(T, BYTES(RESTORE_P10), BYTES(RESTORE_P10, 9, 0, 0, 0, 0, 0, 4)), "no calls");
    ends(2, false, milchkompass_same_ending(BAD_MODE, BYTES(LAUNCH), BYTES(LAUNCH)), "a refused table");
}

int main(void) {
    lengths();
    played();
    called();
    endings();
    printf("c, recordings: %d checks, %d wrong\n", checks, failures);
    return failures != 0;
}
