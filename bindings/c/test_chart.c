/* The flag chart against the static library: how often each value occurs, single entries by hand, and none above 511;
 * and a start driven by it beside one driven by the rules. */
#include <stdio.h>
#include <string.h>

#include "expect.h"
#include "milchkompass.h"

/* How often a value occurs. */
static int times(int value) {
    int found = 0;
    for (int i = 0; i < MILCHKOMPASS_CHART_ENTRIES; i++) found += milchkompass_chart((uint16_t)i) == value;
    return found;
}

static void values(void) {
    const int counted[][2] = {{1, 128}, {4, 96}, {2, 64},  {34, 64}, {37, 48}, {21, 24}, {27, 24},
                              {13, 18}, {11, 12}, {75, 12}, {19, 8},  {5, 6},   {3, 4},   {67, 4}};
    int all = 0;
    for (size_t k = 0; k < sizeof counted / sizeof *counted; k++) {
        expect(times(counted[k][0]) == counted[k][1], "how often a value occurs");
        all += counted[k][1];
    }
    expect(all == MILCHKOMPASS_CHART_ENTRIES, "no other value");
}

/* Index, and entry by the classes and values that apply. */
static void single(void) {
    const int mode = 128, caller = 64, ntk = 32, stp = 16, mtk = 8, ctp = 4, rtf = 2, ctk = 1;
    const int entries[][2] = {
        {0, 3},
        {rtf, 3 + 64},
        {ctp + rtf, 3 + 16},
        {stp + ctk, 3 + 8},
        {ntk, 5},
        {caller, 5},
        {ntk + stp, 5 + 8},
        {ntk + stp + ctp, 5 + 16},
        {caller + ctp + ctk, 5 + 32},
        {ntk + mtk + ctk, 4},
        {mtk, 3},
        {mode, 3 + 8},
        {mode + ntk, 5 + 8},
        {2 * mode + ntk + mtk, 2},
        {2 * mode + ctk, 2 + 32},
        {3 * mode + caller + ntk + ctk, 1},
        {511, 1},
    };
    for (size_t k = 0; k < sizeof entries / sizeof *entries; k++)
        expect(milchkompass_chart((uint16_t)entries[k][0]) == entries[k][1], "an entry");
}

/* Both starts of a screen with a word, from one session: the same session and the same answer. The session after the
 * start by the rules is kept. */
static void both(const uint8_t *table, size_t length, milchkompass_session *s, uint8_t b, uint32_t word) {
    milchkompass_session plain = *s, finishing = *s;
    milchkompass_answer by_chart = milchkompass_finish_start_by_chart(table, length, &finishing, b, word);
    milchkompass_session kept = *s;
    milchkompass_answer answer = milchkompass_finish_start(table, length, &kept, b, word);
    expect(memcmp(&by_chart, &answer, sizeof answer) == 0 && memcmp(&finishing, &kept, sizeof kept) == 0,
           "a finishing start by the chart");
    by_chart = milchkompass_start_by_chart(table, length, &plain, b, word);
    answer = milchkompass_start(table, length, s, b, word);
    expect(memcmp(&by_chart, &answer, sizeof answer) == 0 && memcmp(&plain, s, sizeof plain) == 0,
           "a start by the chart");
}

/* Every word of the seven flags and one with another bit, for each screen of a table with every mode, and one beyond. */
static void starts(void) {
    const uint32_t flags[] = {
        MILCHKOMPASS_FLAG_ACTIVITY_NEW_TASK,      MILCHKOMPASS_FLAG_ACTIVITY_SINGLE_TOP,
        MILCHKOMPASS_FLAG_ACTIVITY_MULTIPLE_TASK, MILCHKOMPASS_FLAG_ACTIVITY_CLEAR_TOP,
        MILCHKOMPASS_FLAG_ACTIVITY_REORDER_TO_FRONT, MILCHKOMPASS_FLAG_ACTIVITY_CLEAR_TASK,
        MILCHKOMPASS_FLAG_ACTIVITY_NO_HISTORY};
    const uint8_t table[] = {6, 0, 0, 1, 1, 1, 2, 1, 3, 1, 2, 2, 0, 0};
    const uint8_t refused[] = {1, 0, 4, 0};
    for (int edition = 6; edition <= 8; edition++) {
        milchkompass_session s = MILCHKOMPASS_SESSION_FRESH;
        both(table, sizeof table, &s, 0, 0);
        for (int choice = 0; choice < 128; choice++) {
            uint32_t word = 0;
            for (int k = 0; k < 7; k++) word |= choice >> k & 1 ? flags[k] : 0;
            for (int b = 0; b < 7; b++) {
                milchkompass_launch(table, sizeof table, &s, (uint8_t)edition);
                both(table, sizeof table, &s, (uint8_t)b, word);
                both(table, sizeof table, &s, (uint8_t)b, word | 1);
                both(table, sizeof table, &s, (uint8_t)(b * 5 % 6), word);
                if (s.n > 12) milchkompass_back(table, sizeof table, &s);
            }
        }
        both(table, sizeof table - 1, &s, 0, 0);
        both(refused, sizeof refused, &s, 0, 0);
    }
}

int main(void) {
    expect(milchkompass_abi() == MILCHKOMPASS_ABI, "the library's number");
    values();
    single();
    starts();
    for (int i = MILCHKOMPASS_CHART_ENTRIES; i <= UINT16_MAX; i++)
        expect(milchkompass_chart((uint16_t)i) == 0, "no entry above 511");
    printf("c, chart: %d checks, %d wrong\n", checks, failures);
    return failures != 0;
}
