/* Counts how often a call of the library copies a session.
 *
 * It is linked with a library whose memcpy and memmove are named counted_memcpy and counted_memmove (`.ci/counts` makes that),
 * so that what is counted is the library's alone. A copy is one of at least half a session's bytes: the compiler may copy one
 * or two tasks, and the numbers behind the tasks, by themselves, and all others at once.
 *
 * Printed is a line for each call: its name, and the most copies that one such call makes, on a small and on a typical session,
 * and of starts each one that is accepted. (On a full session a move of all tasks by one place would be taken for a copy.) */
#include <stdio.h>
#include <string.h>

#include "milchkompass.h"

static int copies;

void *counted_memcpy(void *to, const void *from, size_t length) {
    copies += length >= sizeof(milchkompass_session) / 2;
    return memcpy(to, from, length);
}

void *counted_memmove(void *to, const void *from, size_t length) {
    copies += length >= sizeof(milchkompass_session) / 2;
    return memmove(to, from, length);
}

/* Six screens of document 01's examples. */
static const uint8_t table[] = {6, 0, 0, 1, 0, 1, 1, 1, 2, 2, 3, 1, 0, 2};
static const uint32_t flags[] = {
    MILCHKOMPASS_FLAG_ACTIVITY_NEW_TASK,         MILCHKOMPASS_FLAG_ACTIVITY_SINGLE_TOP,
    MILCHKOMPASS_FLAG_ACTIVITY_MULTIPLE_TASK,    MILCHKOMPASS_FLAG_ACTIVITY_CLEAR_TOP,
    MILCHKOMPASS_FLAG_ACTIVITY_REORDER_TO_FRONT, MILCHKOMPASS_FLAG_ACTIVITY_CLEAR_TASK,
    MILCHKOMPASS_FLAG_ACTIVITY_NO_HISTORY,
};
enum { FLAGS = sizeof flags / sizeof *flags };

enum { LAUNCH, START, FINISHING_START, BACK, LOOK, SAVE, RESTORE, WHY, PLAY, PLAY_CALL, CHART, FINISHING_CHART, CALLS };
static const char *const names[CALLS] = {
    "launch",  "start", "finishing start", "Back",      "look",               "save",
    "restore", "why",   "play",            "play_call", "start by the chart", "finishing start by the chart"};
static int most[CALLS], accepted[CALLS];

/* The copies of a call are those since the last one. */
static void made(int call, uint8_t refusal) {
    if (refusal == 0) accepted[call]++;
    if (refusal == 0 && copies > most[call]) most[call] = copies;
    copies = 0;
}

/* So many tasks of so many screens, of roots 0, 5, 3 and 1; the first is the main one. */
static milchkompass_session of_size(int tasks, int height) {
    static const uint8_t roots[] = {0, 5, 3, 1}, screens[] = {2, 1, 0, 5};
    milchkompass_session s = MILCHKOMPASS_SESSION_FRESH;
    for (int i = 0; i < tasks; i++) {
        s.tasks[i].root = roots[i % 4];
        s.tasks[i].height = height;
        for (int k = 0; k < height; k++) s.tasks[i].screens[k] = screens[k % 4];
    }
    s.n = tasks;
    s.main = 1;
    return s;
}

static void every_start(milchkompass_session s) {
    for (int set = 0; set < 1 << FLAGS; set++) {
        uint32_t word = 0;
        for (int k = 0; k < FLAGS; k++) word |= set >> k & 1 ? flags[k] : 0;
        for (uint8_t b = 0; b < table[0]; b++) {
            uint8_t record[] = {2, b, word >> 24, word >> 16, word >> 8, word};
            milchkompass_session t = s;
            made(START, milchkompass_start(table, sizeof table, &t, b, word).refusal);
            t = s;
            made(FINISHING_START, milchkompass_finish_start(table, sizeof table, &t, b, word).refusal);
            t = s;
            made(CHART, milchkompass_start_by_chart(table, sizeof table, &t, b, word).refusal);
            t = s;
            made(FINISHING_CHART, milchkompass_finish_start_by_chart(table, sizeof table, &t, b, word).refusal);
            made(WHY, milchkompass_why(table, sizeof table, s, b, word).refusal);
            t = s;
            made(PLAY, milchkompass_play(table, sizeof table, &t, record, sizeof record).refusal);
            t = s;
            made(PLAY_CALL, milchkompass_play_call(table, sizeof table, &t, record, sizeof record).refusal);
        }
    }
}

static void every_call(milchkompass_session s) {
    uint8_t image[MILCHKOMPASS_IMAGE_MAX];
    milchkompass_save_reply saved = milchkompass_save(table, sizeof table, s, image, sizeof image);
    made(SAVE, saved.refusal);
    milchkompass_session t = s;
    made(RESTORE, milchkompass_restore(table, sizeof table, &t, image, saved.length).refusal);
    made(LOOK, milchkompass_look(table, sizeof table, &t).refusal);
    made(BACK, milchkompass_back(table, sizeof table, &t).refusal);
    every_start(s);
}

int main(void) {
    if (milchkompass_abi() != MILCHKOMPASS_ABI) {
        fprintf(stderr, "copies: header and library do not fit\n");
        return 2;
    }
    milchkompass_session fresh = MILCHKOMPASS_SESSION_FRESH;
    made(LAUNCH, milchkompass_launch(table, sizeof table, &fresh, 0).refusal);
    every_call(of_size(1, 3));
    every_call(of_size(4, 6));
    for (int call = 0; call < CALLS; call++) {
        if (accepted[call] == 0) {
            fprintf(stderr, "copies: no %s was accepted\n", names[call]);
            return 2;
        }
        printf("%s %d\n", names[call], most[call]);
    }
    return 0;
}
