/* What the programs share that follow a trace of the second program: its lines, one after another, their words, numbers and bytes; and where
   the first difference was. */
#ifndef TRACE_LINES_H
#define TRACE_LINES_H

#include <inttypes.h>
#include <stdint.h>
#include <stdio.h>
#include <stdlib.h>
#include <string.h>

enum { LINE = 1 << 19 };

static char line[LINE];
static unsigned long calls, lines;

static void fail(const char *what) {
    printf("FAILED: line %lu of the trace, call %lu: %s\n", lines, calls, what);
    exit(1);
}

static int next_line(void) {
    if (!fgets(line, sizeof line, stdin)) return 0;
    lines++;
    size_t n = strlen(line);
    if (n == 0 || line[n - 1] != '\n') fail("a line without an end");
    line[n - 1] = 0;
    return 1;
}

/* the words of a line, one after another */
static char *word(char **rest) {
    char *w = strsep(rest, " ");
    if (!w) fail("a word is missing");
    return w;
}

/* the line that has to come next; gives its words after the first */
static char *follows(const char *name) {
    char *rest = line;
    if (!next_line() || strcmp(word(&rest), name) || !rest) {
        printf("%s should follow, and words after it\n", name);
        fail("another line");
    }
    return rest;
}

/* what a word says, a number in decimal */
static uint64_t number_in(const char *w, uint64_t most) {
    char *end;
    uint64_t n = strtoull(w, &end, 10);
    if (*w < '0' || *w > '9' || *end || n > most) fail("a word that is no such number");
    return n;
}

static uint64_t number_up_to(char **rest, uint64_t most) { return number_in(word(rest), most); }

static uint32_t number(char **rest) { return (uint32_t)number_up_to(rest, UINT32_MAX); }

static uint8_t digit(char c) {
    if (c >= '0' && c <= '9') return (uint8_t)(c - '0');
    if (c < 'a' || c > 'f') fail("a digit that is none");
    return (uint8_t)(c - 'a' + 10);
}

/* what a word says, bytes in hex; how many */
static size_t bytes_in(const char *hex, uint8_t *to, size_t most) {
    size_t n = 0;
    if (strcmp(hex, "-") == 0) return 0;
    for (; hex[0]; hex += 2) {
        if (n == most) fail("too many bytes");
        if (!hex[1]) fail("half a byte");
        to[n++] = (uint8_t)(digit(hex[0]) << 4 | digit(hex[1]));
    }
    return n;
}

static size_t bytes(char **rest, uint8_t *to, size_t most) { return bytes_in(word(rest), to, most); }

/* a number that a call answered */
static inline void compare(const char *what, uint64_t got, uint64_t want) {
    if (got == want) return;
    printf("%s: answered %" PRIu64 ", not %" PRIu64 "\n", what, got, want);
    fail("another number");
}

/* what a trace says that a room held before a call */
static inline void fill_room(uint8_t *room, size_t len, uint8_t fill) {
    for (size_t i = 0; i < len; i++) room[i] = (uint8_t)(fill + i + i / 256);
}

#endif
