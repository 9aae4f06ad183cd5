/* What each test counts: checks, and those that fail. */
#include <stdbool.h>
#include <stdio.h>

static int checks, failures;

static void expect(bool holds, const char *what) {
    checks++;
    if (!holds) {
        failures++;
        printf("wrong: %s\n", what);
    }
}
