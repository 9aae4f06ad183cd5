/* Fronts against the static library: sets worked out by hand from the rules, what is refused and in which order, and over
 * every mask and value of some sessions that the set is that of the starts made for each filling. */
#include "calls.h"

typedef milchkompass_front_set fronts;

/* The call gives these three numbers. */
static void gives(fronts f, uint64_t set, uint8_t refusal, uint8_t count, const char *what) {
    expect(f.set == set && f.refusal == refusal && f.count == count, what);
}

/* 5:[1,5] 0:[0], m 2: a task that began with 5, under another screen. */
static const session covered = {{{{5, 1}, 5, 2}, {{0}, 0, 1}}, 2, 2, E8, 0};
/* 0:[0], m 1, with the No-History mark: its front closes with a start. */
static const session lone = {{{{0}, 0, 1}}, 1, 1, E8, 1};
/* 0:[1,0], m 1, with the mark. */
static const session marked = {{{{0, 1}, 0, 2}}, 1, 1, E8, 1};
static const session fresh = MILCHKOMPASS_SESSION_FRESH;

static void sets(void) {
    uint32_t all = MILCHKOMPASS_FLAGS;
    gives(milchkompass_fronts(T, covered, 5, all & ~NTK, 0), 0x22, 0, 2, "R10 or R15: screens 1 and 5");
    gives(milchkompass_fronts(T, covered, 5, all, 0), 0x20, 0, 1, "R10");
    gives(milchkompass_fronts(T, covered, 5, all, NTK), 0x02, 0, 1, "R15");
    gives(milchkompass_fronts(T, covered, 5, 0, 0), 0x22, 0, 2, "nothing known");
    /* From a marked front that starts itself: R7 with SINGLE_TOP; else R10 pushes, and the caller below closes. */
    gives(milchkompass_fronts(T, lone, 0, all, STP), 1, 0, 1, "R7 keeps the caller");
    gives(milchkompass_fronts(T, lone, 0, all, NTK | CTP), 0, 0, 0, "R13 finds the caller, which closes: none is left");
    gives(milchkompass_fronts(T, marked, 1, all, NTK | CTP), 1, 0, 1, "the caller closes, and 0 is uncovered");
    gives(milchkompass_fronts(T, fresh, 5, 0, 0), 0, 0, 0, "an empty session");
}

static void refusals(void) {
    const uint8_t other_main[] = {1, 1, 0, 0};
    session unsound = covered;
    unsound.edition = 0;
    gives(milchkompass_fronts(table_t, 13, unsound, 6, 1, 1), 0, 1, 0, "1 first");
    gives(milchkompass_fronts(other_main, 4, unsound, 6, 1, 1), 0, 2, 0, "then 2");
    gives(milchkompass_fronts(T, unsound, 6, 1, 1), 0, 20, 0, "then 20");
    gives(milchkompass_fronts(T, covered, 6, 1, 1), 0, 3, 0, "then 3");
    gives(milchkompass_fronts(T, covered, 5, 1, 1), 0, 35, 0, "a mask bit outside the seven");
    gives(milchkompass_fronts(T, covered, 5, NTK, STP), 0, 35, 0, "a value bit outside the mask");
    gives(milchkompass_fronts(T, covered, 5, 0, 1), 0, 35, 0, "a value bit that is no flag");
    gives(milchkompass_fronts(T, fresh, 6, 1, 1), 0, 3, 0, "an empty session: 3");
    gives(milchkompass_fronts(T, fresh, 5, 1, 1), 0, 35, 0, "an empty session: 35");
    for (int bit = 0; bit < 32; bit++) {
        uint32_t mask = UINT32_C(1) << bit;
        uint8_t wanted = (mask & MILCHKOMPASS_FLAGS) != 0 ? 0 : 35;
        expect(milchkompass_fronts(T, covered, 5, mask, 0).refusal == wanted, "a mask of one bit");
        expect(milchkompass_fronts(T, covered, 5, mask, mask).refusal == wanted, "a mask and a value of one bit");
    }
}

/* The words of the seven flags, in rising order: the next after all of them is 0. */
static uint32_t next(uint32_t word) {
    return ((word | ~MILCHKOMPASS_FLAGS) + 1) & MILCHKOMPASS_FLAGS;
}

/* The bit of the screen that a start with this word brings to the front, or 0. */
static uint64_t brought(session s, uint8_t b, uint32_t word) {
    answer a = milchkompass_start(T, &s, b, word);
    return a.refusal == 0 && a.tasks > 0 ? UINT64_C(1) << a.screen : 0;
}

static void fillings(session s, uint8_t b) {
    uint32_t mask = 0, value, word;
    do {
        for (value = 0;;) {
            uint64_t set = 0;
            uint8_t count = 0;
            word = 0;
            do {
                if ((word & mask) == value) set |= brought(s, b, word);
                word = next(word);
            } while (word != 0);
            for (uint64_t left = set; left != 0; left &= left - 1) count++;
            gives(milchkompass_fronts(T, s, b, mask, value), set, 0, count, "the starts made for each filling");
            if (value == mask) break;
            value = ((value | ~mask) + 1) & mask;
        }
        mask = next(mask);
    } while (mask != 0);
}

int main(void) {
    sets();
    refusals();
    fillings(covered, 5);
    fillings(lone, 0);
    fillings(marked, 1);
    fillings(fresh, 5);
    printf("fronts: %d checks, %d wrong\n", checks, failures);
    return failures != 0;
}
