/* Containers of panels against the static library: steps, Back, lists, the limits, and what is refused. */
#include <stdbool.h>
#include <stdio.h>
#include <string.h>

#include "expect.h"
#include "milchkompass.h"

typedef milchkompass_container container;

static const container EMPTY = MILCHKOMPASS_CONTAINER_EMPTY;

/* Every byte: a container has no others. */
static bool same(container a, container b) { return memcmp(&a, &b, sizeof a) == 0; }

/* The panels now are these, and so many steps are recorded; behind the panels stands 0. */
static bool shows(container c, const char *panels, int steps) {
    size_t count = strlen(panels);
    bool holds = c.now.count == count && c.steps == steps;
    for (size_t i = 0; i < 8; i++) holds = holds && c.now.panels[i] == (i < count ? panels[i] - '0' : 0);
    return holds;
}

/* A step whose operations are written as digits, kind and panel in turn. */
static uint8_t step(container *c, int recorded, const char *digits) {
    uint8_t operations[16];
    size_t length = strlen(digits);
    for (size_t i = 0; i < length; i++) operations[i] = (uint8_t)(digits[i] - '0');
    return milchkompass_container_step(c, (uint8_t)recorded, operations, length);
}

/* A step is refused with this number, and the container is kept. */
static void refused(container c, int recorded, const char *digits, int refusal, const char *what) {
    const container before = c;
    expect(step(&c, recorded, digits) == refusal && same(c, before), what);
}

static void back_refused(container c, int refusal, const char *what) {
    const container before = c;
    expect(milchkompass_container_back(&c) == refusal && same(c, before), what);
}

/* Add, remove the topmost, replace; and Back to the panels that a step found. */
static void operations(void) {
    container c = EMPTY;
    expect(step(&c, 0, "13111312") == 0 && shows(c, "3132", 0), "four adds");
    expect(step(&c, 1, "23") == 0 && shows(c, "312", 1), "the topmost of two copies is removed");
    expect(step(&c, 255, "29") == 0 && shows(c, "312", 2), "what is not there is removed: recorded all the same");
    expect(step(&c, 1, "371623") == 0 && shows(c, "76", 3), "replace, and a remove that finds none");
    expect(shows((container){.now = c.kept[0], .steps = 3}, "3132", 3), "the first step keeps what it found");
    expect(milchkompass_container_back(&c) == 0 && shows(c, "312", 2), "Back undoes the whole last step");
    expect(c.kept[2].count == 0 && c.kept[2].panels[0] == 0, "its panels are no longer kept");
    expect(milchkompass_container_back(&c) == 0 && milchkompass_container_back(&c) == 0 && shows(c, "3132", 0), "and the others");
    back_refused(c, MILCHKOMPASS_STEP_OUT_OF_PLACE, "Back with none recorded");
}

/* 36 for a step's own bytes, whatever the container. */
static void bad_steps(void) {
    container full = EMPTY;
    full.steps = 9;
    const char *bad[] = {"", "1", "111", "1111111111", "01", "41", "91", "11014141"};
    for (size_t i = 0; i < sizeof bad / sizeof bad[0]; i++) {
        refused(EMPTY, 1, bad[i], MILCHKOMPASS_BAD_STEP_OR_CONTAINER, "a bad count or kind");
        refused(full, 0, bad[i], MILCHKOMPASS_BAD_STEP_OR_CONTAINER, "a bad count or kind, over a bad container");
    }
    container c = EMPTY;
    expect(step(&c, 0, "11") == 0 && step(&c, 0, "1112") == 0 && step(&c, 0, "111213") == 0, "one, two and three operations");
}

/* 36 for a container with too much in it, and only for what is looked at. */
static void bad_containers(void) {
    container c = EMPTY;
    c.steps = 9;
    refused(c, 1, "11", 36, "nine steps");
    back_refused(c, 36, "nine steps, and Back");
    c = EMPTY;
    c.now.count = 9;
    refused(c, 0, "11", 36, "nine panels now");
    back_refused(c, 36, "nine panels now, and Back");
    for (uint8_t i = 0; i < 8; i++) {
        c = EMPTY;
        c.kept[i].count = 9;
        c.steps = i;
        expect(step(&c, i > 0, "14") == 0 && c.kept[7].count == 0, "nine panels beyond the steps are not looked at");
        c = EMPTY;
        c.kept[i].count = 9;
        c.steps = (uint8_t)(i + 1);
        refused(c, 1, "14", 36, "nine panels kept");
        back_refused(c, 36, "nine panels kept, and Back");
    }
}

/* Nine panels, operation by operation, and before 38. */
static void nine_panels(void) {
    container c = EMPTY;
    expect(step(&c, 0, "11121314") == 0 && step(&c, 0, "15161718") == 0 && shows(c, "12345678", 0), "eight panels");
    refused(c, 0, "19", MILCHKOMPASS_PANELS_FULL, "a ninth");
    refused(c, 0, "1929", MILCHKOMPASS_PANELS_FULL, "a ninth that would go again");
    container d = c;
    expect(step(&d, 0, "2819") == 0 && shows(d, "12345679", 0), "one goes, one comes");
    expect(step(&d, 0, "39") == 0 && shows(d, "9", 0), "replace is never too much");
    expect(step(&c, 1, "29") == 0 && shows(c, "12345678", 1), "a recorded step over eight panels");
    refused(c, 0, "19", MILCHKOMPASS_PANELS_FULL, "37 stands before 38");
    refused(c, 0, "29", MILCHKOMPASS_STEP_OUT_OF_PLACE, "an unrecorded step over a recorded one");
}

static void eight_steps(void) {
    container c = EMPTY;
    for (int i = 0; i < 8; i++) expect(step(&c, 1, "31") == 0 && c.steps == i + 1, "a recorded step");
    refused(c, 1, "31", MILCHKOMPASS_STEP_OUT_OF_PLACE, "a ninth recorded step");
    for (int i = 8; i > 0; i--) expect(milchkompass_container_back(&c) == 0 && c.steps == i - 1, "Back");
    expect(same(c, EMPTY), "all undone");
}

/* What stands beyond the counts is 0 after an accepted call, and kept by a refused one. */
static void beyond_the_counts(void) {
    container c;
    memset(&c, 0xff, sizeof c);
    c.now.count = 1;
    c.steps = 1;
    c.kept[0].count = 2;
    refused(c, 0, "11", MILCHKOMPASS_STEP_OUT_OF_PLACE, "every byte is kept");
    const uint8_t add[] = {MILCHKOMPASS_ADD, 5};
    container wanted = EMPTY;
    wanted.now = (milchkompass_panels){2, {255, 5}};
    wanted.steps = 2;
    wanted.kept[0] = (milchkompass_panels){2, {255, 255}};
    wanted.kept[1] = (milchkompass_panels){1, {255}};
    expect(milchkompass_container_step(&c, 1, add, sizeof add) == 0 && same(c, wanted), "a step leaves 0 beyond");
    wanted.now = (milchkompass_panels){1, {255}};
    wanted.steps = 1;
    wanted.kept[1] = (milchkompass_panels){0, {0}};
    expect(milchkompass_container_back(&c) == 0 && same(c, wanted), "and so does Back");
}

/* A list as bytes: an unrecorded step, a recorded one, an unknown kind, Back over two bytes, a recorded one, a cut one. */
static void lists(void) {
    const uint8_t calls[] = {1, 1, 1, 4, 2, 2, 1, 5, 1, 4, 9, 1, 3, 9, 3, 1, 1, 1, 2, 1, 2, 4, 2, 0, 2, 1, 1};
    container c = EMPTY;
    expect(step(&c, 0, "14") == 0 && step(&c, 1, "1514") == 0 && milchkompass_container_back(&c) == 0 && step(&c, 1, "24") == 0,
           "the calls of the list");
    expect(same(milchkompass_container_play(calls, sizeof calls), c), "a list");
    expect(same(milchkompass_container_play(calls, 0), EMPTY), "no call");
    expect(same(milchkompass_container_play(calls, 1), EMPTY), "a cut call is none");
    expect(same(milchkompass_container_play(calls, 3), EMPTY), "nor one whose operations are cut");
    expect(shows(milchkompass_container_play(calls, 4), "4", 0), "the first call");
    expect(shows(milchkompass_container_play(calls, 10), "454", 1), "the first two");
}

int main(void) {
    expect(milchkompass_abi() == MILCHKOMPASS_ABI, "the library's number");
    operations();
    bad_steps();
    bad_containers();
    nine_panels();
    eight_steps();
    beyond_the_counts();
    lists();
    printf("c, container: %d checks, %d wrong\n", checks, failures);
    return failures != 0;
}
