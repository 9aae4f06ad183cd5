/* The proved navigator for programs in C: link libmilchkompass.a (`bindings/library`).
 *
 * A table is bytes: N (1 to 64), the main screen's number, then for screens 0 to N - 1 a launch mode and an affinity,
 * of which 0 is none.
 * A session belongs to its caller, who lends it to each call, and begins as MILCHKOMPASS_SESSION_FRESH, which is not
 * all zeros.
 *
 * For all arguments: an accepted call answers 0 and what is then in front; a refused call answers the number of the
 * first check that fails and zeros, and session and buffers keep every byte. The checks go in the order 1, 2, 20, then
 * those named for the call. A session that is sound under the table stays so. The tally's two calls have a check of
 * their own, 31, a load, which has no session, has 1, 2 and 32, and a container's calls have 36, 37 and 38.
 *
 * A pointer with a length is to that many bytes, and no pointer is null, even with length 0. What a call may write, a
 * session or a buffer, shares no byte with its other arguments. The library keeps no pointer, allocates nothing and has
 * no state.
 *
 * Threads may make calls at the same time, and may share a table and an image, which are only read. A session that is
 * lent by pointer is written in every call, in look too: look stores the session that it read, so its pointer is not
 * const. During the call no other thread reads or writes that session. Save, why and fronts take a copy. So it is with a tally:
 * add writes it, and report takes a copy; and with a container, which step and Back write. */
#ifndef MILCHKOMPASS_H
#define MILCHKOMPASS_H

#include <stdbool.h>
#include <stddef.h>
#include <stdint.h>

#ifdef __cplusplus
extern "C" {
#endif

/* The number of this interface, which is raised with each change of a struct or of a signature. */
#define MILCHKOMPASS_ABI 5

/* The library's own number. Where it is not MILCHKOMPASS_ABI, header and library do not fit: make no other call. */
uint32_t milchkompass_abi(void);

/* The limits of a session: its tasks, and the screens of a task. */
#define MILCHKOMPASS_TASKS 16
#define MILCHKOMPASS_SCREENS 32

/* The length of the longest image of a session, in bytes. */
#define MILCHKOMPASS_IMAGE_MAX 550

/* Whose rules a session follows: those of Android 6.0, 7.0 or 8.0. Android's API levels are other numbers. */
enum milchkompass_edition {
    MILCHKOMPASS_EDITION_6 = 6,
    MILCHKOMPASS_EDITION_7 = 7,
    MILCHKOMPASS_EDITION_8 = 8
};

/* Launch modes, under the names and numbers of Android's ActivityInfo. The first is the manifest's "standard". */
#define MILCHKOMPASS_LAUNCH_MULTIPLE 0
#define MILCHKOMPASS_LAUNCH_SINGLE_TOP 1
#define MILCHKOMPASS_LAUNCH_SINGLE_TASK 2
#define MILCHKOMPASS_LAUNCH_SINGLE_INSTANCE 3

/* The name of a launch mode. */
static inline const char *milchkompass_mode_name(uint8_t mode) {
    switch (mode) {
    case MILCHKOMPASS_LAUNCH_MULTIPLE: return "standard";
    case MILCHKOMPASS_LAUNCH_SINGLE_TOP: return "single-top";
    case MILCHKOMPASS_LAUNCH_SINGLE_TASK: return "single-task";
    case MILCHKOMPASS_LAUNCH_SINGLE_INSTANCE: return "single-instance";
    default: return "no launch mode";
    }
}

/* The seven flags of a start, under the names and numbers of Android's Intent. Any of them may be set together. */
#define MILCHKOMPASS_FLAG_ACTIVITY_NEW_TASK UINT32_C(0x10000000)
#define MILCHKOMPASS_FLAG_ACTIVITY_SINGLE_TOP UINT32_C(0x20000000)
#define MILCHKOMPASS_FLAG_ACTIVITY_MULTIPLE_TASK UINT32_C(0x08000000)
#define MILCHKOMPASS_FLAG_ACTIVITY_CLEAR_TOP UINT32_C(0x04000000)
#define MILCHKOMPASS_FLAG_ACTIVITY_REORDER_TO_FRONT UINT32_C(0x00020000)
#define MILCHKOMPASS_FLAG_ACTIVITY_CLEAR_TASK UINT32_C(0x00008000)
#define MILCHKOMPASS_FLAG_ACTIVITY_NO_HISTORY UINT32_C(0x40000000)

/* All seven together. A flag word with any other bit is refused with 4. */
#define MILCHKOMPASS_FLAGS UINT32_C(0x7c028000)

/* The name of a flag. A word of several has none. */
static inline const char *milchkompass_flag_name(uint32_t flag) {
    switch (flag) {
    case MILCHKOMPASS_FLAG_ACTIVITY_NEW_TASK: return "NEW_TASK";
    case MILCHKOMPASS_FLAG_ACTIVITY_SINGLE_TOP: return "SINGLE_TOP";
    case MILCHKOMPASS_FLAG_ACTIVITY_MULTIPLE_TASK: return "MULTIPLE_TASK";
    case MILCHKOMPASS_FLAG_ACTIVITY_CLEAR_TOP: return "CLEAR_TOP";
    case MILCHKOMPASS_FLAG_ACTIVITY_REORDER_TO_FRONT: return "REORDER_TO_FRONT";
    case MILCHKOMPASS_FLAG_ACTIVITY_CLEAR_TASK: return "CLEAR_TASK";
    case MILCHKOMPASS_FLAG_ACTIVITY_NO_HISTORY: return "NO_HISTORY";
    default: return "no flag";
    }
}

/* The refusals; milchkompass_refusal_text says what each means. 9 is the player's alone, 31 a tally's, 32 a load's, 35
 * that of fronts, and 36 to 38 are a container's. */
enum milchkompass_refusal {
    MILCHKOMPASS_ACCEPTED = 0,
    MILCHKOMPASS_TABLE_LENGTH = 1,
    MILCHKOMPASS_TABLE_CONTENT = 2,
    MILCHKOMPASS_NO_SUCH_SCREEN = 3,
    MILCHKOMPASS_OTHER_FLAG = 4,
    MILCHKOMPASS_IMAGE_TRAILER = 5,
    MILCHKOMPASS_IMAGE_TASKS = 6,
    MILCHKOMPASS_IMAGE_UNSOUND = 7,
    MILCHKOMPASS_BUFFER_SHORT = 8,
    MILCHKOMPASS_BAD_RECORD = 9,
    MILCHKOMPASS_SESSION_UNSOUND = 20,
    MILCHKOMPASS_EMPTY = 21,
    MILCHKOMPASS_NOT_EMPTY = 22,
    MILCHKOMPASS_TASKS_FULL = 23,
    MILCHKOMPASS_TASK_FULL = 24,
    MILCHKOMPASS_NO_SUCH_EDITION = 30,
    MILCHKOMPASS_NOT_TALLIED = 31,
    MILCHKOMPASS_SEED_ZERO = 32,
    MILCHKOMPASS_BAD_KNOWN_FLAGS = 35,
    MILCHKOMPASS_BAD_STEP_OR_CONTAINER = 36,
    MILCHKOMPASS_PANELS_FULL = 37,
    MILCHKOMPASS_STEP_OUT_OF_PLACE = 38
};

/* What a refusal means, in one plain sentence. */
static inline const char *milchkompass_refusal_text(uint8_t refusal) {
    switch (refusal) {
    case MILCHKOMPASS_ACCEPTED: return "the call is accepted";
    case MILCHKOMPASS_TABLE_LENGTH: return "the table's length does not fit its number of screens, or that is not 1 to 64";
    case MILCHKOMPASS_TABLE_CONTENT: return "the table's main screen is not one of its screens, or a launch mode is not 0 to 3";
    case MILCHKOMPASS_NO_SUCH_SCREEN: return "a start names a screen that the table does not have";
    case MILCHKOMPASS_OTHER_FLAG: return "a start's flag word has a bit that is none of the seven flags";
    case MILCHKOMPASS_IMAGE_TRAILER: return "what is restored is no image: too short, an end that is not an edition (6, 7 or 8) and hex 42, or a wrong length";
    case MILCHKOMPASS_IMAGE_TASKS: return "the image has more than 16 tasks, or a task without a screen or with more than 32, or bytes too few or too many";
    case MILCHKOMPASS_IMAGE_UNSOUND: return "the image holds a session that cannot be under this table, or an empty one of edition 6 or 7 or with the mark";
    case MILCHKOMPASS_BUFFER_SHORT: return "the buffer for an image is too short";
    case MILCHKOMPASS_BAD_RECORD: return "the record is of an unknown kind, or the recording ends within it";
    case MILCHKOMPASS_SESSION_UNSOUND: return "the session cannot be under this table, its edition is none of 6, 7 and 8, its mark is above 1, or it is empty and has another edition than 8 or the mark";
    case MILCHKOMPASS_EMPTY: return "a start or Back, and no task is there";
    case MILCHKOMPASS_NOT_EMPTY: return "a launch, and a task is there";
    case MILCHKOMPASS_TASKS_FULL: return "a new task is needed, and 16 stand";
    case MILCHKOMPASS_TASK_FULL: return "a screen is to be pushed onto a task of 32";
    case MILCHKOMPASS_NO_SUCH_EDITION: return "a launch names an edition that is none of 0, 6, 7 and 8";
    case MILCHKOMPASS_NOT_TALLIED: return "library only, from a tally: it has 65,535 calls already, an accepted height is above 32, or no list of answers gives its numbers";
    case MILCHKOMPASS_SEED_ZERO: return "the seed of a load is 0";
    case MILCHKOMPASS_BAD_KNOWN_FLAGS: return "a known flag is none of the seven, or a flag that is not known has a value";
    case MILCHKOMPASS_BAD_STEP_OR_CONTAINER: return "a step has not 1 to 4 operations, or one of another kind than 1 to 3; or the container has more than 8 steps, or more than 8 panels now or kept";
    case MILCHKOMPASS_PANELS_FULL: return "an operation would make nine panels";
    case MILCHKOMPASS_STEP_OUT_OF_PLACE: return "a ninth recorded step, an unrecorded step over recorded ones, or Back with none recorded";
    default: return "no refusal of a call";
    }
}

/* A task: its screens, bottom first, then zeros, the screen that created it, and how many screens it has. */
typedef struct milchkompass_task {
    uint8_t screens[MILCHKOMPASS_SCREENS];
    uint8_t root;
    uint8_t height;
} milchkompass_task;

/* A session: n tasks, front first, then zeros; the place (from 1) of the task made by launch, 0 if it is gone; the
 * edition whose rules it follows, 8 where it is empty; and the No-History mark: 1 where the front screen was pushed or
 * made new by a start with that flag, else 0. With another number there, or with the mark and no task, it is not
 * sound. */
typedef struct milchkompass_session {
    milchkompass_task tasks[MILCHKOMPASS_TASKS];
    uint8_t n;
    uint8_t main;
    uint8_t edition;
    uint8_t no_history;
} milchkompass_session;

/* A fresh session: no task, edition 8, and every other byte is 0. Zeros alone are no session, since 0 is no edition
 * there: under a good table every call on them is refused with 20. */
#define MILCHKOMPASS_SESSION_FRESH {{{{0}, 0, 0}}, 0, 0, MILCHKOMPASS_EDITION_8, 0}

/* The same session, from the library. */
milchkompass_session milchkompass_fresh(void);

/* An answer: the refusal (0 if none), after the call the front screen, the root and the height of the front task, the
 * number of tasks and the main place, all 0 where the session is empty; how many screens the call closed, which is 0
 * for launch, look and restore; and after the call the session's edition, which is 8 where it is empty, and its
 * No-History mark. A refused call has eight zeros behind its refusal. */
typedef struct milchkompass_answer {
    uint8_t refusal;
    uint8_t screen;
    uint8_t root;
    uint8_t height;
    uint8_t tasks;
    uint8_t main;
    uint8_t closed;
    uint8_t edition;
    uint8_t no_history;
} milchkompass_answer;

/* What a save gives: the refusal (0 if none), and the length of the image (0 if refused). */
typedef struct milchkompass_save_reply {
    uint8_t refusal;
    size_t length;
} milchkompass_save_reply;

/* How a task was found. */
enum milchkompass_found {
    MILCHKOMPASS_FOUND_NONE = 0,
    MILCHKOMPASS_FOUND_BY_ROOT = 1,
    MILCHKOMPASS_FOUND_BY_AFFINITY = 2
};

/* Why a start goes as it does: the refusal (0 if none), the number of the rule that it uses, 1 to 18 for R1 to R18, the
 * place (from 1, before the start) of the task found for it, 0 if none, and how that was found. A refused start has
 * three zeros behind its refusal. */
typedef struct milchkompass_reason {
    uint8_t refusal;
    uint8_t rule;
    uint8_t place;
    uint8_t found;
} milchkompass_reason;

/* Which screens could be in front: bit k of the set for screen k, the refusal (0 if none), and how many there are. A
 * refused one has two zeros beside its refusal. */
typedef struct milchkompass_front_set {
    uint64_t set;
    uint8_t refusal;
    uint8_t count;
} milchkompass_front_set;

/* What a rule does, in one plain sentence. */
static inline const char *milchkompass_rule_text(uint8_t rule) {
    switch (rule) {
    case 1: return "the single-instance screen has its task: that task comes to the front";
    case 2: return "the single-instance screen has no task: a new task of it alone comes to the front";
    case 3: return "a task found for the single-task screen is cleared: it comes to the front, all in it closes, and the screen opens in it";
    case 4: return "a task found for it holds the screen: it comes to the front, and what lay above the screen closes";
    case 5: return "a task found for it does not hold the screen: it comes to the front, and the screen opens on top";
    case 6: return "no task is found for the single-task screen: a new task of it alone comes to the front";
    case 7: return "the screen is in front already: the start moves nothing";
    case 8: return "the front task holds the screen, and CLEAR_TOP is set: what lay above the screen closes";
    case 9: return "the front task holds the screen, and REORDER_TO_FRONT is set: it comes to the top; edition 7 empties a main task first";
    case 10: return "the screen opens on top of the front task";
    case 11: return "MULTIPLE_TASK is set: a new task of the screen alone comes to the front";
    case 12: return "a task is found for it, and CLEAR_TASK is set: it comes to the front, all in it closes, and the screen opens in it";
    case 13: return "a task found for it holds the screen, and CLEAR_TOP is set: it comes to the front, and what lay above the screen closes";
    case 14: return "a task found for it does not hold the screen, and CLEAR_TOP is set: it comes to the front, and the screen opens on top";
    case 15: return "a task that began with the screen is found, and is not the main one: it comes to the front as it is";
    case 16: return "a task found for it has the screen on top already: it comes to the front as it is";
    case 17: return "a task is found for it: it comes to the front, and the screen opens on top";
    case 18: return "no task is found for it: a new task of the screen alone comes to the front";
    default: return "no rule";
    }
}

/* What two lists of calls are to each other: the refusal of the table (0 if none), and whether they end alike. */
typedef struct milchkompass_ending {
    uint8_t refusal;
    bool alike;
} milchkompass_ending;

/* What a load gives: the refusal (0 if none), the state after its last record, which is the seed where it made none and
 * 0 where it is refused, and how many records it made (0 if refused). */
typedef struct milchkompass_load_reply {
    uint8_t refusal;
    uint32_t state;
    size_t count;
} milchkompass_load_reply;

/* A tally of answers: the sum of the front heights of the accepted ones, how many were accepted and how many refused,
 * and the greatest front height of the accepted ones. It belongs to its caller. */
typedef struct milchkompass_tally {
    uint32_t sum;
    uint16_t accepted;
    uint16_t refused;
    uint8_t greatest;
} milchkompass_tally;

/* A tally of no answer: every number is 0. */
#define MILCHKOMPASS_TALLY_FRESH {0, 0, 0, 0}

/* A tally counts at most so many answers, accepted and refused together. */
#define MILCHKOMPASS_TALLY_MAX 65535

/* The report of a tally: how many answers were accepted and how many refused, the mean of the accepted ones' front
 * heights in tenths, rounded to the nearest and a half to the even neighbour, the refusal (0 if none), and the greatest
 * of those heights. Mean and greatest are 0 where none was accepted. A refused report has four zeros beside its refusal. */
typedef struct milchkompass_report {
    uint16_t accepted;
    uint16_t refused;
    uint16_t tenths;
    uint8_t refusal;
    uint8_t greatest;
} milchkompass_report;

/* The limits of a container: its panels, and its recorded steps. */
#define MILCHKOMPASS_PANELS 8
#define MILCHKOMPASS_STEPS 8

/* Panels, numbers 0 to 255, bottom first: so many of the array. */
typedef struct milchkompass_panels {
    uint8_t count;
    uint8_t panels[MILCHKOMPASS_PANELS];
} milchkompass_panels;

/* A container of panels inside a screen: the panels now, how many steps are recorded, and the panels that each of them
 * found, oldest first. It belongs to its caller. After an accepted call 0 stands beyond each count and beyond the
 * steps; what stands there before a call is not looked at. */
typedef struct milchkompass_container {
    milchkompass_panels now;
    uint8_t steps;
    milchkompass_panels kept[MILCHKOMPASS_STEPS];
} milchkompass_container;

/* A container without panels and without steps: every byte is 0. */
#define MILCHKOMPASS_CONTAINER_EMPTY {{0, {0}}, 0, {{0, {0}}}}

/* The kinds of a step's operations: add a panel on top, remove the topmost copy of one (nothing happens where there is
 * none), and replace, which removes all and adds one. */
enum milchkompass_operation {
    MILCHKOMPASS_ADD = 1,
    MILCHKOMPASS_REMOVE = 2,
    MILCHKOMPASS_REPLACE = 3
};

/* Launch. After it the session is one task whose root and only screen is the main screen; it is the main task. Its
 * edition is the one named, 8 where that is 0, until it is empty or an image is restored. Its own checks: 22, 30. */
milchkompass_answer milchkompass_launch(const uint8_t *table, size_t table_length, milchkompass_session *s,
                                        uint8_t edition);

/* Start of screen b with a flag word. After it the session is what the first of the rules R1 to R18 that fits, in its
 * edition, makes of it. With the No-History mark it is done as a finishing start, save where R7 fits: there nothing
 * changes, the mark included. Its own checks: 3, 4, 21, then 23 or 24. */
milchkompass_answer milchkompass_start(const uint8_t *table, size_t table_length, milchkompass_session *s, uint8_t b,
                                       uint32_t word);

/* Finishing start. After it the session is what the first rule that fits makes of it, without the screen that was in
 * front before the call, if that still stands. Its own checks: those of a start, made before the removal. */
milchkompass_answer milchkompass_finish_start(const uint8_t *table, size_t table_length, milchkompass_session *s,
                                              uint8_t b, uint32_t word);

/* Why. The reason of a start, or of a finishing start, of screen b with a flag word in this session, which is not lent
 * and stays. Its checks are those of a start. */
milchkompass_reason milchkompass_why(const uint8_t *table, size_t table_length, milchkompass_session s, uint8_t b,
                                     uint32_t word);

/* Fronts. Which screens could be in front after a start of screen b in this session, which is not lent and stays, where
 * only some bits of the flag word are known: those of the mask, with these values. A screen is in the set exactly where
 * some word of the seven flags with the known values is accepted and brings it to the front. None is in it where the
 * session is empty, and a start that empties it brings none. Its own checks: 3, 35. */
milchkompass_front_set milchkompass_fronts(const uint8_t *table, size_t table_length, milchkompass_session s, uint8_t b,
                                           uint32_t mask, uint32_t value);

/* Back. After it the front screen is gone, and its task too if that was its last; the No-History mark is 0. A session
 * left empty has edition 8. Its own check: 21. */
milchkompass_answer milchkompass_back(const uint8_t *table, size_t table_length, milchkompass_session *s);

/* Look. The session stays, though it is written; the answer is what it shows. No check of its own. */
milchkompass_answer milchkompass_look(const uint8_t *table, size_t table_length, milchkompass_session *s);

/* Save. After it the buffer begins with the session's image, whose length is in the reply, and the rest of the buffer
 * stays. Its own check: 8, which a buffer of MILCHKOMPASS_IMAGE_MAX bytes never meets. */
milchkompass_save_reply milchkompass_save(const uint8_t *table, size_t table_length, milchkompass_session s,
                                          uint8_t *out, size_t out_length);

/* Restore of a whole image. After it the session, with its edition and its No-History mark, is the one whose image it
 * is, and the answer is that of a look at it. Its own checks: 5, 6, 7. */
milchkompass_answer milchkompass_restore(const uint8_t *table, size_t table_length, milchkompass_session *s,
                                         const uint8_t *image, size_t image_length);

/* How many bytes the first record of a recording takes: six, or fewer where it is cut. The bytes are those behind the
 * table, from the record on. */
size_t milchkompass_record_length(const uint8_t *calls, size_t calls_length);

/* Play. The record at the start of the bytes is decoded and its call is made, as the player does. One of an unknown kind,
 * 6 too, and one that is cut are refused with 9, before all other checks. */
milchkompass_answer milchkompass_play(const uint8_t *table, size_t table_length, milchkompass_session *s,
                                      const uint8_t *calls, size_t calls_length);

/* How many bytes the first record of a list of calls takes. There a record of kind 6 is a restore, its word is the
 * length of an image, and the image follows it and is part of it. A record that is cut takes all bytes. */
size_t milchkompass_call_length(const uint8_t *calls, size_t calls_length);

/* Play of such a record. One of another unknown kind, and one that is cut, are refused with 9. */
milchkompass_answer milchkompass_play_call(const uint8_t *table, size_t table_length, milchkompass_session *s,
                                           const uint8_t *calls, size_t calls_length);

/* Whether two lists of calls, made from a fresh session, end in sessions that no later list of launches, starts,
 * finishing starts, Backs and looks tells apart. Records of unknown kinds, and a cut one at the end, are no calls. Its
 * checks: 1, 2. */
milchkompass_ending milchkompass_same_ending(const uint8_t *table, size_t table_length, const uint8_t *first,
                                             size_t first_length, const uint8_t *second, size_t second_length);

/* Load. After it the buffer begins with the records that the generator makes from the seed, six bytes each and as many
 * as fit; the 0 to 5 bytes beyond them stay. A load from the state that it gives goes on where it ended. Its checks: 1,
 * 2, 32. */
milchkompass_load_reply milchkompass_load(const uint8_t *table, size_t table_length, uint32_t seed, uint8_t *out,
                                          size_t out_length);

/* Add. An answer, by its refusal and its front height, joins the tally, and 0 is given; the height of a refused answer
 * is not looked at. Otherwise 31, and the tally keeps its numbers: where it has MILCHKOMPASS_TALLY_MAX answers already,
 * where an accepted height is above MILCHKOMPASS_SCREENS, and where no list of answers gives the tally. */
uint8_t milchkompass_tally_add(milchkompass_tally *t, uint8_t refusal, uint8_t height);

/* The report of a tally. Its check is 31, for a tally that no list of answers gives. */
milchkompass_report milchkompass_tally_report(milchkompass_tally t);

/* A step in a container. Its operations, 1 to 4, are kind and panel in turn, so 2 to 8 bytes, and are carried out one
 * after the other. With recorded other than 0 the step is recorded, and keeps the panels that it found. Gives the
 * refusal, 0 if none. Its checks: 36, 37, 38; the container is kept. */
uint8_t milchkompass_container_step(milchkompass_container *c, uint8_t recorded, const uint8_t *operations,
                                    size_t operations_length);

/* Back in a container: the last recorded step is undone, and dropped. Gives the refusal, 0 if none. Its checks: 36, 38;
 * the container is kept. */
uint8_t milchkompass_container_back(milchkompass_container *c);

/* The container after a list of calls, made one after the other from an empty one; a refused call changes nothing. A
 * call is a kind (1 a step, 2 a recorded step, 3 Back), a count n and 2n bytes, which are the operations of a step, and
 * which Back passes over. An unknown kind is no call, and a call that is cut ends the list. */
milchkompass_container milchkompass_container_play(const uint8_t *calls, size_t calls_length);

/* The flag chart has so many entries, each a byte that is not 0. */
#define MILCHKOMPASS_CHART_ENTRIES 512

/* The flag chart: the entry at an index, or 0 where there is none. The index is 128 times the screen's launch mode, 64
 * where the front screen is single-instance, and what the flags are worth: new task 32, single top 16, multiple task 8,
 * clear top 4, reorder to front 2, clear task 1. The low three bits of an entry are the class of its rules: 1 for R1 and
 * R2, 2 for R3 to R6, 3 for R7 to R10, 4 for R11, 5 for R12 to R18. Added to it are 8 for single, 16 for clear top, 32
 * for clear task and 64 for reorder to front, where the rules of the class ask for these. */
uint8_t milchkompass_chart(uint16_t index);

/* Start of screen b with a flag word, driven by the flag chart: session and answer are those of milchkompass_start. */
milchkompass_answer milchkompass_start_by_chart(const uint8_t *table, size_t table_length, milchkompass_session *s,
                                                uint8_t b, uint32_t word);

/* Finishing start driven by the flag chart: session and answer are those of milchkompass_finish_start. */
milchkompass_answer milchkompass_finish_start_by_chart(const uint8_t *table, size_t table_length,
                                                       milchkompass_session *s, uint8_t b, uint32_t word);

#ifdef __cplusplus
}
#endif

#endif

/* Android's names without the prefix, for a caller who defines MILCHKOMPASS_ANDROID_NAMES before the include. */
#ifdef MILCHKOMPASS_ANDROID_NAMES
#define LAUNCH_MULTIPLE MILCHKOMPASS_LAUNCH_MULTIPLE
#define LAUNCH_SINGLE_TOP MILCHKOMPASS_LAUNCH_SINGLE_TOP
#define LAUNCH_SINGLE_TASK MILCHKOMPASS_LAUNCH_SINGLE_TASK
#define LAUNCH_SINGLE_INSTANCE MILCHKOMPASS_LAUNCH_SINGLE_INSTANCE
#define FLAG_ACTIVITY_NEW_TASK MILCHKOMPASS_FLAG_ACTIVITY_NEW_TASK
#define FLAG_ACTIVITY_SINGLE_TOP MILCHKOMPASS_FLAG_ACTIVITY_SINGLE_TOP
#define FLAG_ACTIVITY_MULTIPLE_TASK MILCHKOMPASS_FLAG_ACTIVITY_MULTIPLE_TASK
#define FLAG_ACTIVITY_CLEAR_TOP MILCHKOMPASS_FLAG_ACTIVITY_CLEAR_TOP
#define FLAG_ACTIVITY_REORDER_TO_FRONT MILCHKOMPASS_FLAG_ACTIVITY_REORDER_TO_FRONT
#define FLAG_ACTIVITY_CLEAR_TASK MILCHKOMPASS_FLAG_ACTIVITY_CLEAR_TASK
#define FLAG_ACTIVITY_NO_HISTORY MILCHKOMPASS_FLAG_ACTIVITY_NO_HISTORY
#endif
