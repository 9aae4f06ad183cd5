/* What tests of calls share: short names, table T and P10, and checks of what a call answers and leaves. */
#include <stdbool.h>
#include <string.h>

#include "expect.h"
#define MILCHKOMPASS_ANDROID_NAMES
#include "milchkompass.h"

/* The flags by document 01's short names, and the seventh by one of that kind. */
#define NTK FLAG_ACTIVITY_NEW_TASK
#define STP FLAG_ACTIVITY_SINGLE_TOP
#define MTK FLAG_ACTIVITY_MULTIPLE_TASK
#define CTP FLAG_ACTIVITY_CLEAR_TOP
#define RTF FLAG_ACTIVITY_REORDER_TO_FRONT
#define CTK FLAG_ACTIVITY_CLEAR_TASK
#define NOH FLAG_ACTIVITY_NO_HISTORY

/* The editions. */
#define E6 MILCHKOMPASS_EDITION_6
#define E7 MILCHKOMPASS_EDITION_7
#define E8 MILCHKOMPASS_EDITION_8

typedef milchkompass_session session;
typedef milchkompass_answer answer;

/* Table T of document 01, and the same with its length. */
static const uint8_t table_t[] = {6, 0, LAUNCH_MULTIPLE, 1, LAUNCH_MULTIPLE, 1, LAUNCH_SINGLE_TOP, 1,
                                  LAUNCH_SINGLE_TASK, 2, LAUNCH_SINGLE_INSTANCE, 1, LAUNCH_MULTIPLE, 2};
#define T table_t, sizeof table_t

/* P10: 3:[3] 0:[1,0], m 2, and its image. */
static const session p10 = {{{{3}, 3, 1}, {{0, 1}, 0, 2}}, 2, 2, E8, 0};
static const uint8_t p10_image[] = {3, 1, 3, 0, 2, 1, 0, 0, 7, 2, 2, 8, 0x42};

static bool same(session s, session t) {
    return memcmp(&s, &t, sizeof s) == 0;
}

/* The call answers these nine numbers. */
#define ANSWERS(call, ...)                                                                                             \
    do {                                                                                                               \
        answer got = call, wanted = {__VA_ARGS__};                                                                     \
        expect(memcmp(&got, &wanted, sizeof got) == 0, #call);                                                         \
    } while (0)

/* The call on a copy `s` of the session answers this refusal, and the copy keeps its bytes. */
#define REFUSED(number, before, call)                                                                                  \
    do {                                                                                                               \
        session s = before;                                                                                            \
        ANSWERS(call, number, 0, 0, 0, 0, 0, 0, 0, 0);                                                                 \
        expect(same(s, before), #call ": the session");                                                                \
    } while (0)

/* The save answers this refusal, and the buffer keeps its bytes. */
static inline void save_refused(uint8_t number, const uint8_t *table, size_t length, session s, size_t room) {
    uint8_t out[MILCHKOMPASS_IMAGE_MAX], before[sizeof out];
    memset(out, 0xee, sizeof out);
    memcpy(before, out, sizeof out);
    milchkompass_save_reply reply = milchkompass_save(table, length, s, out, room);
    expect(reply.refusal == number && reply.length == 0, "a refused save");
    expect(memcmp(out, before, sizeof out) == 0, "a refused save: the buffer");
}

/* Every call is refused by this number, whatever else it is given. */
static inline void all_refused(uint8_t number, const uint8_t *table, size_t length, session before) {
    REFUSED(number, before, milchkompass_launch(table, length, &s, 5));
    REFUSED(number, before, milchkompass_start(table, length, &s, 255, 1));
    REFUSED(number, before, milchkompass_finish_start(table, length, &s, 255, 1));
    REFUSED(number, before, milchkompass_back(table, length, &s));
    REFUSED(number, before, milchkompass_look(table, length, &s));
    REFUSED(number, before, milchkompass_restore(table, length, &s, p10_image, 5));
    save_refused(number, table, length, before, 0);
}

/* A start, or a finishing one, with the session before and after it. In a task screens stand bottom first. */
typedef struct stack {
    const char *name;
    session before;
    bool finishing;
    uint8_t b;
    uint32_t word;
    session after;
    uint8_t closed;
} stack;

/* Of each stack what is told, and then the start. */
static inline void play_stacks(const stack *p, const milchkompass_reason *wanted, size_t count) {
    for (; count > 0; count--, p++, wanted++) {
        session s = p->before;
        milchkompass_reason got = milchkompass_why(T, s, p->b, p->word);
        expect(memcmp(&got, wanted, sizeof got) == 0, p->name);
        answer a = p->finishing ? milchkompass_finish_start(T, &s, p->b, p->word)
                                : milchkompass_start(T, &s, p->b, p->word);
        expect(a.refusal == MILCHKOMPASS_ACCEPTED && same(s, p->after), p->name);
        expect(a.closed == p->closed && a.edition == p->after.edition && a.no_history == p->after.no_history, p->name);
    }
}
