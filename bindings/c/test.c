/* The header against the static library: layout, the examples of document 01, editions, refusals, save and restore. */
#include <stdbool.h>
#include <stdio.h>
#include <string.h>

#include "milchkompass.h"

#if defined LAUNCH_MULTIPLE || defined LAUNCH_SINGLE_TOP || defined LAUNCH_SINGLE_TASK || \
    defined LAUNCH_SINGLE_INSTANCE || defined FLAG_ACTIVITY_NEW_TASK || defined FLAG_ACTIVITY_SINGLE_TOP || \
    defined FLAG_ACTIVITY_MULTIPLE_TASK || defined FLAG_ACTIVITY_CLEAR_TOP || \
    defined FLAG_ACTIVITY_REORDER_TO_FRONT || defined FLAG_ACTIVITY_CLEAR_TASK || defined FLAG_ACTIVITY_NO_HISTORY
#error "Android's names without the prefix, which nobody asked for"
#endif
#include "calls.h"

/* The current number's row of bindings/abi: sizes, places, and each function declared once more, alike. */
#define SIZE(type, size) _Static_assert(sizeof(type) == (size), #type)
#define FIELD(type, field, offset, size)                                                                               \
    _Static_assert(offsetof(type, field) == (offset) && sizeof(((type *)0)->field) == (size), #type "." #field)
#include "abi_row.h"

/* Header and library have the same number. */
static void number(void) {
    expect(milchkompass_abi() == MILCHKOMPASS_ABI, "the library's number");
}

static void fresh_session(void) {
    session fresh = MILCHKOMPASS_SESSION_FRESH, zeros;
    memset(&zeros, 0, sizeof zeros);
    expect(!same(fresh, zeros), "a fresh session is not all zeros");
    zeros.edition = E8;
    expect(same(fresh, zeros), "a fresh session is zeros and edition 8");
    expect(same(fresh, milchkompass_fresh()), "a fresh session is the library's");
}

static bool says(const char *text, const char *wanted) {
    return strcmp(text, wanted) == 0;
}

/* Each number has its text or its name, and no other has one. */
static void texts(void) {
    expect(says(milchkompass_refusal_text(MILCHKOMPASS_ACCEPTED), "the call is accepted"), "the text of 0");
    expect(says(milchkompass_refusal_text(22), "a launch, and a task is there"), "the text of 22");
    expect(says(milchkompass_rule_text(10), "the screen opens on top of the front task"), "the text of R10");
    expect(says(milchkompass_mode_name(LAUNCH_SINGLE_TASK), "single-task"), "the name of a launch mode");
    for (int i = 0; i < 256; i++) {
        uint8_t number = (uint8_t)i;
        bool refusal = i <= 9 || (20 <= i && i <= 24) || (30 <= i && i <= 32) || (35 <= i && i <= 38);
        bool rule = 1 <= i && i <= 18, mode = i <= 3;
        expect(says(milchkompass_refusal_text(number), "no refusal of a call") != refusal, "a text for each refusal");
        expect(says(milchkompass_rule_text(number), "no rule") != rule, "a text for each rule");
        expect(says(milchkompass_mode_name(number), "no launch mode") != mode, "a name for each launch mode");
    }
}

/* Each bit of the mask has a name, and no other word has one. */
static void names_of_flags(void) {
    expect(says(milchkompass_flag_name(NOH), "NO_HISTORY"), "the name of a flag");
    expect(says(milchkompass_flag_name(0), "no flag"), "the name of no flag");
    expect(says(milchkompass_flag_name(NTK | STP), "no flag"), "the name of two flags");
    for (int i = 0; i < 32; i++) {
        uint32_t bit = UINT32_C(1) << i;
        bool flag = (bit & MILCHKOMPASS_FLAGS) != 0;
        expect(says(milchkompass_flag_name(bit), "no flag") != flag, "a name for each flag");
    }
}

/* The player's example, call by call, launched so: it is the same in each edition but for that number. */
static void example(uint8_t named, uint8_t edition) {
    session s = MILCHKOMPASS_SESSION_FRESH, second = p10;
    const session fresh = s;
    second.edition = edition;
    ANSWERS(milchkompass_look(T, &s), 0, 0, 0, 0, 0, 0, 0, 8, 0);
    ANSWERS(milchkompass_launch(T, &s, named), 0, 0, 0, 1, 1, 1, 0, edition, 0);
    ANSWERS(milchkompass_start(T, &s, 1, 0), 0, 1, 0, 2, 1, 1, 0, edition, 0);
    ANSWERS(milchkompass_start(T, &s, 3, 0), 0, 3, 3, 1, 2, 2, 0, edition, 0);
    expect(same(s, second), "the session of P10");
    ANSWERS(milchkompass_look(T, &s), 0, 3, 3, 1, 2, 2, 0, edition, 0);
    expect(same(s, second), "a look changes nothing");
    ANSWERS(milchkompass_finish_start(T, &s, 0, NTK), 0, 0, 0, 3, 1, 1, 1, edition, 0);
    ANSWERS(milchkompass_back(T, &s), 0, 1, 0, 2, 1, 1, 1, edition, 0);
    ANSWERS(milchkompass_back(T, &s), 0, 0, 0, 1, 1, 1, 1, edition, 0);
    ANSWERS(milchkompass_back(T, &s), 0, 0, 0, 0, 0, 0, 1, 8, 0);
    ANSWERS(milchkompass_back(T, &s), 21, 0, 0, 0, 0, 0, 0, 0, 0);
    expect(same(s, fresh), "the end of the example is a fresh session");
}

/* The stacks P1 to P9. */
static const stack stacks[] = {
    {"P1", {{{{0, 1, 2}, 0, 3}}, 1, 1, E8, 0}, false, 1, RTF, {{{{0, 2, 1}, 0, 3}}, 1, 1, E8, 0}, 0},
    {"P2", {{{{0, 1, 2}, 0, 3}}, 1, 1, E8, 0}, false, 1, CTP, {{{{0, 1}, 0, 2}}, 1, 1, E8, 0}, 1},
    {"P2, both", {{{{0, 1, 2}, 0, 3}}, 1, 1, E8, 0}, false, 1, CTP | RTF, {{{{0, 1}, 0, 2}}, 1, 1, E8, 0}, 1},
    {"P3", {{{{0, 1, 2}, 0, 3}}, 1, 1, E8, 0}, false, 2, 0, {{{{0, 1, 2}, 0, 3}}, 1, 1, E8, 0}, 0},
    {"P4", {{{{4}, 4, 1}, {{3}, 3, 1}, {{0, 1}, 0, 2}}, 3, 3, E8, 0}, false, 1, 0,
           {{{{0, 1, 1}, 0, 3}, {{4}, 4, 1}, {{3}, 3, 1}}, 3, 1, E8, 0}, 0},
    {"P5", {{{{4}, 4, 1}, {{3}, 3, 1}, {{0, 1}, 0, 2}}, 3, 3, E8, 0}, false, 1, STP,
           {{{{0, 1}, 0, 2}, {{4}, 4, 1}, {{3}, 3, 1}}, 3, 1, E8, 0}, 0},
    {"P6", {{{{5, 1}, 5, 2}, {{0}, 0, 1}}, 2, 2, E8, 0}, false, 5, NTK,
           {{{{5, 1}, 5, 2}, {{0}, 0, 1}}, 2, 2, E8, 0}, 0},
    {"P7", {{{{3}, 3, 1}, {{0}, 0, 1}}, 2, 2, E8, 0}, false, 3, NTK | MTK,
           {{{{3}, 3, 1}, {{0}, 0, 1}}, 2, 2, E8, 0}, 0},
    {"P8", {{{{0}, 0, 1}}, 1, 1, E8, 0}, true, 0, NTK | CTK, {{{{0}, 0, 1}}, 1, 1, E8, 0}, 1},
    {"P9", {{{{0}, 0, 1}}, 1, 1, E8, 0}, true, 0, NTK | STP, {{{{0}, 0, 0}}, 0, 0, E8, 0}, 1},
};

/* Which rule moves each of them, where its task was found, and how. */
static const milchkompass_reason told[] = {
    {0, 9, 0, MILCHKOMPASS_FOUND_NONE},         {0, 8, 0, MILCHKOMPASS_FOUND_NONE},
    {0, 8, 0, MILCHKOMPASS_FOUND_NONE},         {0, 7, 0, MILCHKOMPASS_FOUND_NONE},
    {0, 17, 3, MILCHKOMPASS_FOUND_BY_AFFINITY}, {0, 16, 3, MILCHKOMPASS_FOUND_BY_AFFINITY},
    {0, 15, 1, MILCHKOMPASS_FOUND_BY_ROOT},     {0, 4, 1, MILCHKOMPASS_FOUND_BY_ROOT},
    {0, 12, 1, MILCHKOMPASS_FOUND_BY_ROOT},     {0, 16, 1, MILCHKOMPASS_FOUND_BY_ROOT},
};
_Static_assert(sizeof told / sizeof *told == sizeof stacks / sizeof *stacks, "a reason for each stack");

/* What editions 6 and 7 do otherwise, and what they do alike. */
static const stack other_stacks[] = {
    {"7, R9, main task", {{{{0, 1, 2}, 0, 3}}, 1, 1, E7, 0}, false, 1, RTF, {{{{1}, 0, 1}}, 1, 1, E7, 0}, 3},
    {"7, R9, finishing", {{{{0, 1, 2}, 0, 3}}, 1, 1, E7, 0}, true, 1, RTF, {{{{1}, 0, 1}}, 1, 1, E7, 0}, 3},
    {"7, R9, no main task", {{{{0, 1, 2}, 0, 3}}, 1, 0, E7, 0}, false, 1, RTF, {{{{0, 2, 1}, 0, 3}}, 1, 0, E7, 0}, 0},
    {"7, R9, other task", {{{{5, 1}, 5, 2}, {{0}, 0, 1}}, 2, 2, E7, 0}, false, 5, RTF,
                          {{{{1, 5}, 5, 2}, {{0}, 0, 1}}, 2, 2, E7, 0}, 0},
    {"7, R7", {{{{0, 1, 2}, 0, 3}}, 1, 1, E7, 0}, false, 2, RTF, {{{{0, 1, 2}, 0, 3}}, 1, 1, E7, 0}, 0},
    {"6, R9", {{{{0, 1, 2}, 0, 3}}, 1, 1, E6, 0}, false, 1, RTF, {{{{0, 2, 1}, 0, 3}}, 1, 1, E6, 0}, 0},
    {"6, P6", {{{{5, 1}, 5, 2}, {{0}, 0, 1}}, 2, 2, E6, 0}, false, 5, NTK,
              {{{{5, 1, 5}, 5, 3}, {{0}, 0, 1}}, 2, 2, E6, 0}, 0},
    {"6, single-task", {{{{5}, 5, 1}, {{0}, 0, 1}, {{5}, 3, 1}}, 3, 2, E6, 0}, false, 3, 0,
                       {{{{5, 3}, 5, 2}, {{0}, 0, 1}, {{5}, 3, 1}}, 3, 2, E6, 0}, 0},
    {"6, R1", {{{{0}, 0, 1}, {{4}, 4, 1}}, 2, 1, E6, 0}, false, 4, 0, {{{{4}, 4, 1}, {{0}, 0, 1}}, 2, 2, E6, 0}, 0},
    {"6, P9", {{{{0}, 0, 1}}, 1, 1, E6, 0}, true, 0, NTK | STP, {{{{0}, 0, 0}}, 0, 0, E8, 0}, 1},
};

static const milchkompass_reason other_told[] = {
    {0, 9, 0, MILCHKOMPASS_FOUND_NONE},         {0, 9, 0, MILCHKOMPASS_FOUND_NONE},
    {0, 9, 0, MILCHKOMPASS_FOUND_NONE},         {0, 9, 0, MILCHKOMPASS_FOUND_NONE},
    {0, 7, 0, MILCHKOMPASS_FOUND_NONE},         {0, 9, 0, MILCHKOMPASS_FOUND_NONE},
    {0, 17, 1, MILCHKOMPASS_FOUND_BY_AFFINITY}, {0, 5, 1, MILCHKOMPASS_FOUND_BY_AFFINITY},
    {0, 1, 2, MILCHKOMPASS_FOUND_BY_ROOT},      {0, 16, 1, MILCHKOMPASS_FOUND_BY_AFFINITY},
};
_Static_assert(sizeof other_told / sizeof *other_told == sizeof other_stacks / sizeof *other_stacks, "the same");

/* The reason of a start of b is these four numbers. */
#define REASON(table, before, b, word, ...)                                                                            \
    do {                                                                                                               \
        milchkompass_reason got = milchkompass_why(table, sizeof table, before, b, word), wanted = {__VA_ARGS__};      \
        expect(memcmp(&got, &wanted, sizeof got) == 0, "why " #before " " #b " " #word);                               \
    } while (0)

/* Why a start is refused. */
static void refused_reasons(void) {
    const session fresh = MILCHKOMPASS_SESSION_FRESH, unsound = {{{{0}, 0, 0}}, 0, 1, E8, 0};
    const uint8_t bad_mode[] = {1, 0, 4, 0};
    milchkompass_reason cut = milchkompass_why(table_t, sizeof table_t - 1, unsound, 255, 1);
    expect(cut.refusal == MILCHKOMPASS_TABLE_LENGTH && cut.rule + cut.place + cut.found == 0, "why, table cut");
    REASON(bad_mode, unsound, 255, 1, MILCHKOMPASS_TABLE_CONTENT, 0, 0, 0);
    REASON(table_t, unsound, 255, 1, MILCHKOMPASS_SESSION_UNSOUND, 0, 0, 0);
    REASON(table_t, p10, 6, 1, MILCHKOMPASS_NO_SUCH_SCREEN, 0, 0, 0);
    REASON(table_t, fresh, 0, 1, MILCHKOMPASS_OTHER_FLAG, 0, 0, 0);
    REASON(table_t, fresh, 0, 0, MILCHKOMPASS_EMPTY, 0, 0, 0);
}

/* Screens without affinity in edition 6: a single-task one is sought by root, another is not sought at all. */
static void without_affinity(void) {
    const uint8_t table[] = {3, 0, LAUNCH_MULTIPLE, 1, LAUNCH_SINGLE_TASK, 0, LAUNCH_MULTIPLE, 0};
    session s = {{{{0}, 0, 1}, {{1}, 1, 1}}, 2, 1, E6, 0};
    REASON(table, s, 1, 0, 0, 4, 2, MILCHKOMPASS_FOUND_BY_ROOT);
    ANSWERS(milchkompass_start(table, sizeof table, &s, 1, 0), 0, 1, 1, 1, 2, 2, 0, 6, 0);
    s = (session){{{{2}, 2, 1}, {{0}, 0, 1}}, 2, 2, E6, 0};
    REASON(table, s, 2, NTK, 0, 18, 0, MILCHKOMPASS_FOUND_NONE);
    ANSWERS(milchkompass_start(table, sizeof table, &s, 2, NTK), 0, 2, 2, 1, 3, 3, 0, 6, 0);
    s = (session){{{{2}, 2, 1}, {{0}, 0, 1}}, 2, 2, E8, 0};
    REASON(table, s, 2, NTK, 0, 15, 1, MILCHKOMPASS_FOUND_BY_ROOT);
    ANSWERS(milchkompass_start(table, sizeof table, &s, 2, NTK), 0, 2, 2, 1, 2, 2, 0, 8, 0);
}

/* P10's image, there and back, byte for byte. */
static void save_and_restore(void) {
    uint8_t out[sizeof p10_image + 1];
    memset(out, 0xee, sizeof out);
    milchkompass_save_reply reply = milchkompass_save(T, p10, out, sizeof out);
    expect(reply.refusal == MILCHKOMPASS_ACCEPTED && reply.length == sizeof p10_image, "save of P10");
    expect(memcmp(out, p10_image, sizeof p10_image) == 0, "the image of P10");
    expect(out[sizeof p10_image] == 0xee, "the rest of the buffer");
    session s = MILCHKOMPASS_SESSION_FRESH;
    ANSWERS(milchkompass_restore(T, &s, out, reply.length), 0, 3, 3, 1, 2, 2, 0, 8, 0);
    expect(same(s, p10), "restore of P10");
}

/* The image of P10 with any byte for its edition: three are images, of three sessions. */
static void editions_of_images(void) {
    uint8_t image[sizeof p10_image], out[sizeof p10_image], empty[] = {0, 0, 0, 0, 8, 0x42};
    memcpy(image, p10_image, sizeof image);
    for (int i = 0; i < 256; i++) {
        session s = MILCHKOMPASS_SESSION_FRESH, second = p10;
        const session fresh = s;
        uint8_t edition = second.edition = image[sizeof image - 2] = empty[4] = (uint8_t)i;
        if (edition < E6 || edition > E8) {
            REFUSED(MILCHKOMPASS_IMAGE_TRAILER, p10, milchkompass_restore(T, &s, image, sizeof image));
            REFUSED(MILCHKOMPASS_IMAGE_TRAILER, p10, milchkompass_restore(T, &s, empty, sizeof empty));
            continue;
        }
        ANSWERS(milchkompass_restore(T, &s, image, sizeof image), 0, 3, 3, 1, 2, 2, 0, edition, 0);
        expect(same(s, second), "restore of P10 in an edition");
        milchkompass_save_reply reply = milchkompass_save(T, s, out, sizeof out);
        expect(reply.length == sizeof out && memcmp(out, image, sizeof out) == 0, "the image of P10 in an edition");
        if (edition == E8) {
            ANSWERS(milchkompass_restore(T, &s, empty, sizeof empty), 0, 0, 0, 0, 0, 0, 0, 8, 0);
            expect(same(s, fresh), "restore of a fresh session");
        } else {
            REFUSED(MILCHKOMPASS_IMAGE_UNSOUND, p10, milchkompass_restore(T, &s, empty, sizeof empty));
        }
    }
}

/* Refusals 1, 2 and 20. */
static void shared_refusals(void) {
    const uint8_t no_main[] = {1, 1, LAUNCH_MULTIPLE, 0}, bad_mode[] = {1, 0, 4, 0};
    const session unsound = {{{{0}, 0, 0}}, 0, 1, E8, 0};
    all_refused(MILCHKOMPASS_TABLE_LENGTH, table_t, sizeof table_t - 1, unsound);
    all_refused(MILCHKOMPASS_TABLE_CONTENT, no_main, sizeof no_main, unsound);
    all_refused(MILCHKOMPASS_TABLE_CONTENT, bad_mode, sizeof bad_mode, unsound);
    all_refused(MILCHKOMPASS_SESSION_UNSOUND, T, unsound);
}

/* Refusal 20 by the edition: none of the three, which all zeros have too, or one that an empty session has not. */
static void held_editions(void) {
    session empty = MILCHKOMPASS_SESSION_FRESH, second = p10;
    for (int i = 0; i < 256; i++) {
        uint8_t edition = empty.edition = second.edition = (uint8_t)i;
        if (edition != E8) all_refused(MILCHKOMPASS_SESSION_UNSOUND, T, empty);
        if (edition < E6 || edition > E8) all_refused(MILCHKOMPASS_SESSION_UNSOUND, T, second);
    }
}

/* Refusal 30, after 22: launch takes 0, 6, 7 and 8. */
static void launch_refusals(void) {
    const session fresh = MILCHKOMPASS_SESSION_FRESH;
    for (int i = 0; i < 256; i++) {
        uint8_t edition = (uint8_t)i;
        REFUSED(MILCHKOMPASS_NOT_EMPTY, p10, milchkompass_launch(T, &s, edition));
        if (edition == 0 || edition == E6 || edition == E7 || edition == E8) continue;
        REFUSED(MILCHKOMPASS_NO_SUCH_EDITION, fresh, milchkompass_launch(T, &s, edition));
    }
}

/* Refusals 3, 4 and 21. */
static void call_refusals(void) {
    const session fresh = MILCHKOMPASS_SESSION_FRESH;
    REFUSED(MILCHKOMPASS_NO_SUCH_SCREEN, p10, milchkompass_start(T, &s, 6, 1));
    REFUSED(MILCHKOMPASS_NO_SUCH_SCREEN, p10, milchkompass_finish_start(T, &s, 6, 1));
    REFUSED(MILCHKOMPASS_OTHER_FLAG, fresh, milchkompass_start(T, &s, 0, 1));
    REFUSED(MILCHKOMPASS_OTHER_FLAG, fresh, milchkompass_finish_start(T, &s, 0, 1));
    REFUSED(MILCHKOMPASS_EMPTY, fresh, milchkompass_start(T, &s, 0, 0));
    REFUSED(MILCHKOMPASS_EMPTY, fresh, milchkompass_finish_start(T, &s, 0, 0));
    REFUSED(MILCHKOMPASS_EMPTY, fresh, milchkompass_back(T, &s));
}

/* Refusals 5, 6, 7 and 8. */
static void image_refusals(void) {
    const uint8_t half_task[] = {3, 0, 1, 1, 0, 8, 0x42}, other_root[] = {1, 1, 1, 0, 3, 1, 1, 8, 0x42};
    REFUSED(MILCHKOMPASS_IMAGE_TRAILER, p10, milchkompass_restore(T, &s, p10_image, sizeof p10_image - 1));
    REFUSED(MILCHKOMPASS_IMAGE_TASKS, p10, milchkompass_restore(T, &s, half_task, sizeof half_task));
    REFUSED(MILCHKOMPASS_IMAGE_UNSOUND, p10, milchkompass_restore(T, &s, other_root, sizeof other_root));
    save_refused(MILCHKOMPASS_BUFFER_SHORT, T, p10, sizeof p10_image - 1);
}

/* Refusals 23 and 24: a session of 16 tasks, and a task of 32 screens; one less takes one more. */
static void full(void) {
    session s = MILCHKOMPASS_SESSION_FRESH;
    milchkompass_launch(T, &s, E8);
    for (int i = 2; i <= MILCHKOMPASS_TASKS; i++)
        ANSWERS(milchkompass_start(T, &s, 0, NTK | MTK), 0, 0, 0, 1, i, i, 0, 8, 0);
    const session tasks = s;
    REFUSED(MILCHKOMPASS_TASKS_FULL, tasks, milchkompass_start(T, &s, 0, NTK | MTK));
    REFUSED(MILCHKOMPASS_TASKS_FULL, tasks, milchkompass_finish_start(T, &s, 0, NTK | MTK));
    s = (session)MILCHKOMPASS_SESSION_FRESH;
    milchkompass_launch(T, &s, 0);
    for (int i = 2; i <= MILCHKOMPASS_SCREENS; i++)
        ANSWERS(milchkompass_start(T, &s, 1, 0), 0, 1, 0, i, 1, 1, 0, 8, 0);
    const session screens = s;
    REFUSED(MILCHKOMPASS_TASK_FULL, screens, milchkompass_start(T, &s, 1, 0));
    REFUSED(MILCHKOMPASS_TASK_FULL, screens, milchkompass_finish_start(T, &s, 1, 0));
    ANSWERS(milchkompass_start(T, &s, 0, RTF), 0, 0, 0, 32, 1, 1, 0, 8, 0);
    s = screens;
    s.edition = E7;
    ANSWERS(milchkompass_start(T, &s, 0, RTF), 0, 0, 0, 1, 1, 1, 32, 7, 0);
}

int main(void) {
    number();
    fresh_session();
    texts();
    names_of_flags();
    example(0, E8);
    example(E8, E8);
    example(E7, E7);
    example(E6, E6);
    play_stacks(stacks, told, sizeof stacks / sizeof *stacks);
    play_stacks(other_stacks, other_told, sizeof other_stacks / sizeof *other_stacks);
    without_affinity();
    refused_reasons();
    save_and_restore();
    editions_of_images();
    shared_refusals();
    held_editions();
    launch_refusals();
    call_refusals();
    image_refusals();
    full();
    printf("c: %d checks, %d wrong\n", checks, failures);
    return failures != 0;
}
