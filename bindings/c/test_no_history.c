/* The No-History flag and mark against the static library: what sets, keeps and clears the mark, what a start from a
 * marked front closes, images, and refusals. */
#include <stdbool.h>
#include <stdio.h>
#include <string.h>

#include "calls.h"

#define NONE MILCHKOMPASS_FOUND_NONE
#define ROOT MILCHKOMPASS_FOUND_BY_ROOT
#define AFFINITY MILCHKOMPASS_FOUND_BY_AFFINITY

/* 0:[1,0], m 1, with the mark, and its image. */
static const session notice = {{{{0, 1}, 0, 2}}, 1, 1, E8, 1};
static const uint8_t notice_image[] = {0, 2, 1, 0, 0, 4, 1, 0x81, 8, 0x42};

/* The mask has bits 15, 17 and 26 to 30. A start with another bit is refused with 4, on a fresh session before 21. */
static void words(void) {
    const session fresh = MILCHKOMPASS_SESSION_FRESH;
    expect(MILCHKOMPASS_FLAGS == (NTK | STP | MTK | CTP | RTF | CTK | NOH), "the mask of the seven flags");
    for (int i = 0; i < 32; i++) {
        uint32_t word = UINT32_C(1) << i;
        bool flag = i == 15 || i == 17 || (26 <= i && i <= 30);
        uint8_t number = flag ? MILCHKOMPASS_EMPTY : MILCHKOMPASS_OTHER_FLAG;
        expect(flag == ((word & MILCHKOMPASS_FLAGS) != 0), "a bit of the mask");
        expect(milchkompass_why(T, fresh, 0, word).refusal == number, "why of one bit");
        REFUSED(number, fresh, milchkompass_start(T, &s, 0, word));
        REFUSED(number, fresh, milchkompass_finish_start(T, &s, 0, word));
        REFUSED(number, fresh, milchkompass_start(T, &s, 0, word | NOH));
    }
}

/* A notice is shown, left by a start, shown again, and left by Back; the session ends empty and is launched again. */
static void example(void) {
    session s = MILCHKOMPASS_SESSION_FRESH;
    ANSWERS(milchkompass_launch(T, &s, E8), 0, 0, 0, 1, 1, 1, 0, 8, 0);
    ANSWERS(milchkompass_start(T, &s, 1, NOH), 0, 1, 0, 2, 1, 1, 0, 8, 1);
    expect(same(s, notice), "the session with the mark");
    ANSWERS(milchkompass_start(T, &s, 2, 0), 0, 2, 0, 2, 1, 1, 1, 8, 0);
    ANSWERS(milchkompass_finish_start(T, &s, 1, NOH), 0, 1, 0, 2, 1, 1, 1, 8, 1);
    expect(same(s, notice), "the same by a finishing start");
    ANSWERS(milchkompass_back(T, &s), 0, 0, 0, 1, 1, 1, 1, 8, 0);
    ANSWERS(milchkompass_start(T, &s, 3, NOH), 0, 3, 3, 1, 2, 2, 0, 8, 1);
    ANSWERS(milchkompass_start(T, &s, 0, NTK), 0, 0, 0, 2, 1, 1, 1, 8, 0);
    ANSWERS(milchkompass_back(T, &s), 0, 0, 0, 1, 1, 1, 1, 8, 0);
    ANSWERS(milchkompass_back(T, &s), 0, 0, 0, 0, 0, 0, 1, 8, 0);
    ANSWERS(milchkompass_launch(T, &s, E8), 0, 0, 0, 1, 1, 1, 0, 8, 0);
}

/* Look, save, why, refused calls and a plain start by R7 leave the session as it is. */
static void kept(void) {
    const uint32_t nothing[] = {STP, CTP, RTF, STP | NOH, CTP | NOH, RTF | NOH, STP | MTK | CTK};
    session s = notice;
    ANSWERS(milchkompass_look(T, &s), 0, 1, 0, 2, 1, 1, 0, 8, 1);
    for (size_t i = 0; i < sizeof nothing / sizeof *nothing; i++) {
        expect(milchkompass_why(T, s, 1, nothing[i]).rule == 7, "R7");
        ANSWERS(milchkompass_start(T, &s, 1, nothing[i]), 0, 1, 0, 2, 1, 1, 0, 8, 1);
    }
    expect(same(s, notice), "nothing is changed");
    REFUSED(MILCHKOMPASS_NOT_EMPTY, notice, milchkompass_launch(T, &s, E8));
    REFUSED(MILCHKOMPASS_NO_SUCH_SCREEN, notice, milchkompass_start(T, &s, 6, 0));
    REFUSED(MILCHKOMPASS_OTHER_FLAG, notice, milchkompass_start(T, &s, 0, UINT32_C(0x80000000)));
    REFUSED(MILCHKOMPASS_OTHER_FLAG, notice, milchkompass_finish_start(T, &s, 0, NOH | 1));
    REFUSED(MILCHKOMPASS_IMAGE_TRAILER, notice, milchkompass_restore(T, &s, notice_image, 5));
}

/* Starts with the flag: where the screen is pushed or made new, the mark is set; a move, a clear, a lift or R7 sets
 * none. */
static const stack flagged[] = {
    {"R1", {{{{0}, 0, 1}, {{4}, 4, 1}}, 2, 1, E8, 0}, false, 4, NOH, {{{{4}, 4, 1}, {{0}, 0, 1}}, 2, 2, E8, 0}, 0},
    {"R2", {{{{0}, 0, 1}}, 1, 1, E8, 0}, false, 4, NOH, {{{{4}, 4, 1}, {{0}, 0, 1}}, 2, 2, E8, 1}, 0},
    {"R3", {{{{0}, 0, 1}, {{3}, 3, 1}}, 2, 1, E8, 0}, false, 3, CTK | NOH,
           {{{{3}, 3, 1}, {{0}, 0, 1}}, 2, 2, E8, 1}, 1},
    {"R4", {{{{0}, 0, 1}, {{3, 5}, 3, 2}}, 2, 1, E8, 0}, false, 3, NOH, {{{{3}, 3, 1}, {{0}, 0, 1}}, 2, 2, E8, 0}, 1},
    {"R5", {{{{5}, 5, 1}, {{0}, 0, 1}}, 2, 2, E8, 0}, false, 3, NOH, {{{{5, 3}, 5, 2}, {{0}, 0, 1}}, 2, 2, E8, 1}, 0},
    {"R7", {{{{0, 1, 2}, 0, 3}}, 1, 1, E8, 0}, false, 2, NOH, {{{{0, 1, 2}, 0, 3}}, 1, 1, E8, 0}, 0},
    {"R8", {{{{0, 1, 2}, 0, 3}}, 1, 1, E8, 0}, false, 1, CTP | NOH, {{{{0, 1}, 0, 2}}, 1, 1, E8, 0}, 1},
    {"R9", {{{{0, 1, 2}, 0, 3}}, 1, 1, E8, 0}, false, 1, RTF | NOH, {{{{0, 2, 1}, 0, 3}}, 1, 1, E8, 0}, 0},
    {"R9, edition 7", {{{{0, 1, 2}, 0, 3}}, 1, 1, E7, 0}, false, 1, RTF | NOH, {{{{1}, 0, 1}}, 1, 1, E7, 1}, 3},
    {"R11", {{{{0}, 0, 1}}, 1, 1, E8, 0}, false, 1, NTK | MTK | NOH, {{{{1}, 1, 1}, {{0}, 0, 1}}, 2, 2, E8, 1}, 0},
    {"R13", {{{{0, 1, 2}, 0, 3}}, 1, 1, E8, 0}, false, 1, NTK | CTP | NOH, {{{{0, 1}, 0, 2}}, 1, 1, E8, 0}, 1},
    {"R15", {{{{5, 1}, 5, 2}, {{0}, 0, 1}}, 2, 2, E8, 0}, false, 5, NTK | NOH,
            {{{{5, 1}, 5, 2}, {{0}, 0, 1}}, 2, 2, E8, 0}, 0},
};
static const milchkompass_reason flagged_told[] = {
    {0, 1, 2, ROOT}, {0, 2, 0, NONE}, {0, 3, 2, ROOT}, {0, 4, 2, ROOT},  {0, 5, 1, AFFINITY},  {0, 7, 0, NONE},
    {0, 8, 0, NONE}, {0, 9, 0, NONE}, {0, 9, 0, NONE}, {0, 11, 0, NONE}, {0, 13, 1, AFFINITY}, {0, 15, 1, ROOT},
};
_Static_assert(sizeof flagged_told / sizeof *flagged_told == sizeof flagged / sizeof *flagged, "a reason for each");

/* Starts from a marked front: its screen closes, if the rule has not closed it already, save by R7. */
static const stack marked[] = {
    {"R1, marked", {{{{0}, 0, 1}, {{4}, 4, 1}}, 2, 1, E8, 1}, false, 4, NOH, {{{{4}, 4, 1}}, 1, 0, E8, 0}, 1},
    {"R1, itself", {{{{4}, 4, 1}, {{0}, 0, 1}}, 2, 2, E8, 1}, false, 4, NOH, {{{{0}, 0, 1}}, 1, 1, E8, 0}, 1},
    {"R4, itself", {{{{3}, 3, 1}, {{0}, 0, 1}}, 2, 2, E8, 1}, false, 3, 0, {{{{0}, 0, 1}}, 1, 1, E8, 0}, 1},
    {"R5, marked", {{{{5}, 5, 1}, {{0}, 0, 1}}, 2, 2, E8, 1}, false, 3, NOH,
                   {{{{3}, 5, 1}, {{0}, 0, 1}}, 2, 2, E8, 1}, 1},
    {"R6, marked", {{{{0, 1}, 0, 2}}, 1, 1, E8, 1}, false, 3, 0, {{{{3}, 3, 1}, {{0}, 0, 1}}, 2, 2, E8, 0}, 1},
    {"R7, marked", {{{{0, 1, 2}, 0, 3}}, 1, 1, E8, 1}, false, 2, 0, {{{{0, 1, 2}, 0, 3}}, 1, 1, E8, 1}, 0},
    {"R7, finishing", {{{{0, 1, 2}, 0, 3}}, 1, 1, E8, 1}, true, 2, NOH, {{{{0, 1}, 0, 2}}, 1, 1, E8, 0}, 1},
    {"R8, marked", {{{{0, 1, 2}, 0, 3}}, 1, 1, E8, 1}, false, 1, CTP | NOH, {{{{0, 1}, 0, 2}}, 1, 1, E8, 0}, 1},
    {"R9, marked", {{{{0, 1, 2}, 0, 3}}, 1, 1, E8, 1}, false, 1, RTF | NOH, {{{{0, 1}, 0, 2}}, 1, 1, E8, 0}, 1},
    {"R9, edition 7, marked", {{{{0, 1, 2}, 0, 3}}, 1, 1, E7, 1}, false, 1, RTF, {{{{1}, 0, 1}}, 1, 1, E7, 0}, 3},
    {"R10, marked", {{{{0, 1}, 0, 2}}, 1, 1, E8, 1}, false, 2, NOH, {{{{0, 2}, 0, 2}}, 1, 1, E8, 1}, 1},
    {"R12, marked", {{{{0, 1, 2}, 0, 3}}, 1, 1, E8, 1}, false, 1, NTK | CTK, {{{{1}, 0, 1}}, 1, 1, E8, 0}, 3},
    {"R13, itself", {{{{0, 1}, 0, 2}}, 1, 1, E8, 1}, false, 1, NTK | CTP, {{{{0}, 0, 1}}, 1, 1, E8, 0}, 1},
    {"R15, itself", {{{{5}, 5, 1}, {{0}, 0, 1}}, 2, 2, E8, 1}, false, 5, NTK, {{{{0}, 0, 1}}, 1, 1, E8, 0}, 1},
    {"R16, to the end", {{{{0}, 0, 1}}, 1, 1, E7, 1}, false, 0, NTK | STP | NOH, {{{{0}, 0, 0}}, 0, 0, E8, 0}, 1},
    {"R17, marked", {{{{0, 1}, 0, 2}}, 1, 1, E8, 1}, false, 0, NTK | NOH, {{{{0, 0}, 0, 2}}, 1, 1, E8, 1}, 1},
};
static const milchkompass_reason marked_told[] = {
    {0, 1, 2, ROOT},      {0, 1, 1, ROOT},  {0, 4, 1, ROOT},  {0, 5, 1, AFFINITY},
    {0, 6, 0, NONE},      {0, 7, 0, NONE},  {0, 7, 0, NONE},  {0, 8, 0, NONE},
    {0, 9, 0, NONE},      {0, 9, 0, NONE},  {0, 10, 0, NONE}, {0, 12, 1, AFFINITY},
    {0, 13, 1, AFFINITY}, {0, 15, 1, ROOT}, {0, 16, 1, ROOT}, {0, 17, 1, ROOT},
};
_Static_assert(sizeof marked_told / sizeof *marked_told == sizeof marked / sizeof *marked, "a reason for each");

/* 23 and 24 are decided before anything closes. */
static void full(void) {
    session tasks = {.n = MILCHKOMPASS_TASKS, .main = 1, .edition = E8, .no_history = 1}, screens = notice;
    for (int i = 0; i < MILCHKOMPASS_TASKS; i++) tasks.tasks[i] = (milchkompass_task){.height = 1};
    REFUSED(MILCHKOMPASS_TASKS_FULL, tasks, milchkompass_start(T, &s, 0, NTK | MTK));
    screens.tasks[0].height = MILCHKOMPASS_SCREENS;
    REFUSED(MILCHKOMPASS_TASK_FULL, screens, milchkompass_start(T, &s, 1, 0));
}

/* The mark is bit 7 of the m byte, the third from the end. */
static void images(void) {
    uint8_t out[sizeof notice_image];
    milchkompass_save_reply reply = milchkompass_save(T, notice, out, sizeof out);
    expect(reply.refusal == 0 && reply.length == sizeof out, "save with the mark");
    expect(memcmp(out, notice_image, sizeof out) == 0, "the image with the mark");
    session s = p10;
    ANSWERS(milchkompass_restore(T, &s, notice_image, sizeof notice_image), 0, 1, 0, 2, 1, 1, 0, 8, 1);
    expect(same(s, notice), "restore with the mark");
    ANSWERS(milchkompass_restore(T, &s, p10_image, sizeof p10_image), 0, 3, 3, 1, 2, 2, 0, 8, 0);
    expect(same(s, p10), "restore without the mark");
}

/* The image of P10 and an empty one with any m byte: of P10 m is 0 or 2, with or without the mark. */
static void main_bytes(void) {
    uint8_t image[sizeof p10_image], empty[] = {0, 0, 0, 0, 8, 0x42};
    memcpy(image, p10_image, sizeof image);
    for (int i = 0; i < 256; i++) {
        session s = notice, second = p10;
        uint8_t byte = image[sizeof image - 3] = empty[3] = (uint8_t)i;
        uint8_t m = second.main = byte % 128, mark = second.no_history = byte / 128;
        if (m == 0 || m == 2) {
            ANSWERS(milchkompass_restore(T, &s, image, sizeof image), 0, 3, 3, 1, 2, m, 0, 8, mark);
            expect(same(s, second), "restore by the m byte");
        } else {
            REFUSED(MILCHKOMPASS_IMAGE_UNSOUND, notice, milchkompass_restore(T, &s, image, sizeof image));
        }
        if (i > 0) REFUSED(MILCHKOMPASS_IMAGE_UNSOUND, notice, milchkompass_restore(T, &s, empty, sizeof empty));
    }
}

/* Refusal 20 by the mark: a number above 1, or any on an empty session. */
static void held(void) {
    session empty = MILCHKOMPASS_SESSION_FRESH, second = p10;
    for (int i = 1; i < 256; i++) {
        empty.no_history = second.no_history = (uint8_t)i;
        all_refused(MILCHKOMPASS_SESSION_UNSOUND, T, empty);
        expect(milchkompass_why(T, empty, 255, 1).refusal == MILCHKOMPASS_SESSION_UNSOUND, "why with a bad mark");
        if (i > 1) all_refused(MILCHKOMPASS_SESSION_UNSOUND, T, second);
    }
}

int main(void) {
    expect(milchkompass_abi() == MILCHKOMPASS_ABI, "the library's number");
    words();
    example();
    kept();
    play_stacks(flagged, flagged_told, sizeof flagged / sizeof *flagged);
    play_stacks(marked, marked_told, sizeof marked / sizeof *marked);
    full();
    images();
    main_bytes();
    held();
    printf("c, no history: %d checks, %d wrong\n", checks, failures);
    return failures != 0;
}
