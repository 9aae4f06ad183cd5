/* The tally and its report against the static library: the sample, rounding, the limits, and what is refused. */
#include <stdbool.h>
#include <stdio.h>

#include "expect.h"
#include "milchkompass.h"

typedef milchkompass_tally tally;
typedef milchkompass_report report;

/* The limits as numbers of their own: 65,535 answers, and heights up to 32. */
enum { MOST = 65535, HIGHEST = 32 };

/* Field by field: a tally has bytes that are no number. */
static bool same(tally a, tally b) {
    return a.sum == b.sum && a.accepted == b.accepted && a.refused == b.refused && a.greatest == b.greatest;
}

/* The report of the tally is accepted, and has these numbers in the order in which they are printed. */
static void reports(tally t, int accepted, int refused, int greatest, int tenths, const char *what) {
    report r = milchkompass_tally_report(t);
    expect(r.refusal == MILCHKOMPASS_ACCEPTED && r.accepted == accepted && r.refused == refused, what);
    expect(r.greatest == greatest && r.tenths == tenths, what);
}

/* Adding is refused with 31, and the tally stays. */
static void not_added(tally t, uint8_t refusal, uint8_t height, const char *what) {
    const tally before = t;
    expect(milchkompass_tally_add(&t, refusal, height) == MILCHKOMPASS_NOT_TALLIED && same(t, before), what);
}

/* So many answers with this refusal and height are added. */
static tally with(tally t, int count, uint8_t refusal, uint8_t height) {
    bool added = true;
    for (; count > 0; count--) added = milchkompass_tally_add(&t, refusal, height) == 0 && added;
    expect(added, "added");
    return t;
}

/* The player's example of document 01, tallied call by call. */
static void sample(void) {
    const uint8_t table[] = {6, 0, 0, 1, 0, 1, 1, 1, 2, 2, 3, 1, 0, 2};
    milchkompass_session s = MILCHKOMPASS_SESSION_FRESH;
    tally t = MILCHKOMPASS_TALLY_FRESH;
    reports(t, 0, 0, 0, 0, "the report of no answer");
    milchkompass_answer answers[8];
    answers[0] = milchkompass_launch(table, sizeof table, &s, MILCHKOMPASS_EDITION_8);
    answers[1] = milchkompass_start(table, sizeof table, &s, 1, 0);
    answers[2] = milchkompass_start(table, sizeof table, &s, 3, 0);
    answers[3] = milchkompass_finish_start(table, sizeof table, &s, 0, MILCHKOMPASS_FLAG_ACTIVITY_NEW_TASK);
    for (int i = 4; i < 8; i++) answers[i] = milchkompass_back(table, sizeof table, &s);
    for (int i = 0; i < 8; i++)
        expect(milchkompass_tally_add(&t, answers[i].refusal, answers[i].height) == 0, "an answer of the sample");
    expect(same(t, (tally){10, 7, 1, 3}), "the tally of the sample");
    reports(t, 7, 1, 3, 14, "the report of the sample");
}

/* Means of two heights, rounded to the nearest tenth, and halves to the even neighbour. */
static void rounding(void) {
    const tally fresh = MILCHKOMPASS_TALLY_FRESH;
    reports(with(with(fresh, 19, 0, 1), 1, 0, 2), 20, 0, 2, 10, "10.5 tenths");
    reports(with(with(fresh, 15, 0, 1), 5, 0, 2), 20, 0, 2, 12, "12.5 tenths");
    reports(with(with(fresh, 17, 0, 1), 3, 0, 2), 20, 0, 2, 12, "11.5 tenths");
    reports(with(with(fresh, 2, 0, 1), 3, 0, 2), 5, 0, 2, 16, "16 tenths");
    reports(with(with(fresh, 9, 0, 0), 10, 0, 1), 19, 0, 1, 5, "5.26 tenths");
    reports(with(with(fresh, 1, 0, 1), 2, 0, 2), 3, 0, 2, 17, "16.67 tenths");
    reports(with(with(fresh, 2, 0, 1), 1, 0, 2), 3, 0, 2, 13, "13.33 tenths");
    reports(with(with(fresh, 19, 0, 0), 1, 0, 1), 20, 0, 1, 0, "0.5 tenths");
    reports(with(with(fresh, 20, 0, 0), 1, 0, 1), 21, 0, 1, 0, "0.48 tenths");
    reports(with(fresh, 3, 0, 0), 3, 0, 0, 0, "heights of 0");
}

/* Every height, accepted and refused, on a tally of one accepted answer of height 1. */
static void heights(void) {
    const tally one = {1, 1, 0, 1};
    for (int i = 0; i < 256; i++) {
        uint8_t height = (uint8_t)i;
        tally t = one;
        if (height > HIGHEST) {
            not_added(one, 0, height, "a height above 32");
        } else {
            tally wanted = {1u + height, 2, 0, height > 1 ? height : 1};
            expect(milchkompass_tally_add(&t, 0, height) == 0 && same(t, wanted), "an accepted height");
        }
        tally refused = {1, 1, 1, 1};
        t = one;
        expect(milchkompass_tally_add(&t, 21, height) == 0 && same(t, refused), "the height of a refused answer");
        t = one;
        if (i > 0) expect(milchkompass_tally_add(&t, (uint8_t)i, 5) == 0 && same(t, refused), "any refusal");
    }
}

/* 65,535 answers are taken, and no further one. */
static void most(void) {
    const tally fresh = MILCHKOMPASS_TALLY_FRESH;
    expect(MILCHKOMPASS_TALLY_MAX == MOST, "the limit");
    tally highest = with(fresh, MOST, 0, HIGHEST);
    tally refused = with(fresh, MOST, 21, 0);
    tally mixed = with(with(fresh, MOST - 1, 9, 0), 1, 0, 2);
    reports(highest, MOST, 0, HIGHEST, 320, "65,535 of height 32");
    reports(refused, 0, MOST, 0, 0, "65,535 refused");
    reports(mixed, 1, MOST - 1, 2, 20, "65,534 refused and one of height 2");
    for (int height = 0; height < 256; height++) {
        not_added(highest, 0, (uint8_t)height, "a 65,536th answer, accepted");
        not_added(refused, 21, (uint8_t)height, "a 65,536th answer, refused");
        not_added(mixed, 0, (uint8_t)height, "a 65,536th answer, accepted after refused ones");
    }
}

/* Whether a list of answers gives the tally: they are not too many, the greatest of the accepted heights is one of
 * them, and the others are at most it. */
static bool given(tally t) {
    if ((uint32_t)t.accepted + t.refused > MOST) return false;
    if (t.accepted == 0) return t.sum == 0 && t.greatest == 0;
    return t.greatest <= HIGHEST && t.greatest <= t.sum && t.sum <= (uint32_t)t.accepted * t.greatest;
}

/* A tally that no list gives is refused by both calls; another one is reported. */
static void tried(tally t) {
    report r = milchkompass_tally_report(t);
    if (given(t)) {
        expect(r.refusal == 0 && r.accepted == t.accepted && r.greatest == t.greatest, "a tally of a list");
        return;
    }
    expect(r.refusal == MILCHKOMPASS_NOT_TALLIED, "the report of a tally of no list");
    expect(r.accepted == 0 && r.refused == 0 && r.greatest == 0 && r.tenths == 0, "the zeros of a refused report");
    not_added(t, 0, 1, "an accepted answer to a tally of no list");
    not_added(t, 21, 0, "a refused answer to a tally of no list");
}

static void of_no_list(void) {
    const uint16_t counts[] = {0, 1, 2, 3, 32767, 32768, MOST - 1, MOST};
    const size_t many = sizeof counts / sizeof *counts;
    for (size_t i = 0; i < many * many; i++) {
        uint16_t accepted = counts[i / many], refused = counts[i % many];
        for (int greatest = 0; greatest < 256; greatest = greatest < 34 ? greatest + 1 : greatest + 13) {
            uint8_t g = (uint8_t)greatest;
            uint32_t product = (uint32_t)accepted * g;
            const uint32_t sums[] = {0, 1, g - 1u, g, g + 1u, product - 1, product, product + 1, UINT32_MAX};
            for (size_t k = 0; k < sizeof sums / sizeof *sums; k++) tried((tally){sums[k], accepted, refused, g});
        }
    }
}

int main(void) {
    expect(milchkompass_abi() == MILCHKOMPASS_ABI, "the library's number");
    sample();
    rounding();
    heights();
    most();
    of_no_list();
    printf("c, tally: %d checks, %d wrong\n", checks, failures);
    return failures != 0;
}
