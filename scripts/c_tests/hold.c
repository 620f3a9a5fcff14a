/* hold FILE..: tests calls with each request for memory refused in turn, and with every length of the caller's arrays.
 *
 * Linked with -Wl,--wrap=malloc,--wrap=realloc. For each document: with any one request refused, a call returns 4 and
 * writes nothing or, where only the parser's fast path needed it, does the same as without the refusal; with arrays of
 * any length, they get a prefix of the records and of the strings, nothing after it is touched, and the counts are the
 * same. For an invalid document only the fault is written. So it is with an edit and the formatter, with any one
 * request refused. */
#include "toml_span.h"

#include <stdio.h>
#include <stdlib.h>
#include <string.h>

void *__real_malloc(size_t size);
void *__real_realloc(void *block, size_t size);
static long asked, refused = -1;

void *__wrap_malloc(size_t size) { return asked++ == refused ? NULL : __real_malloc(size); }
void *__wrap_realloc(void *block, size_t size) { return asked++ == refused ? NULL : __real_realloc(block, size); }

static char text[1 << 16];
static size_t length;

/* The arrays that a call fills, in blocks whose bytes are known before the call. */
typedef struct {
    toml_span_node *nodes;
    char *strings;
    toml_span_counts counts;
    toml_span_fault fault;
    size_t room, strings_room;
} outcome;

static uint32_t run(outcome *out) {
    memset(out->nodes, 0x5A, (out->room + 1) * sizeof *out->nodes);
    memset(out->strings, 0x5A, out->strings_room + 1);
    memset(&out->counts, 0x5A, sizeof out->counts);
    memset(&out->fault, 0x5A, sizeof out->fault);
    return toml_span_parse(text, length, out->nodes, out->room, out->strings, out->strings_room, &out->counts,
                           &out->fault);
}

static int is_blank(const void *block, size_t size) {
    const unsigned char *bytes = block;
    for (size_t at = 0; at < size; at++)
        if (bytes[at] != 0x5A) return 0;
    return 1;
}

static size_t least(size_t a, size_t b) { return a < b ? a : b; }

/* Returns whether a prefix of the whole was written, and nothing after it. */
static int is_front(const outcome *part, const outcome *whole) {
    size_t nodes = least(part->room, whole->counts.nodes), bytes = least(part->strings_room, whole->counts.strings);
    return !memcmp(&part->counts, &whole->counts, sizeof part->counts) &&
           !memcmp(part->nodes, whole->nodes, nodes * sizeof *part->nodes) &&
           !memcmp(part->strings, whole->strings, bytes) &&
           is_blank(part->nodes + nodes, (part->room + 1 - nodes) * sizeof *part->nodes) &&
           is_blank(part->strings + bytes, part->strings_room + 1 - bytes) &&
           is_blank(&part->fault, sizeof part->fault);
}

/* Returns whether nothing was written except, with `fault`, the fault. */
static int is_kept(const outcome *out, int fault) {
    return is_blank(out->nodes, (out->room + 1) * sizeof *out->nodes) &&
           is_blank(out->strings, out->strings_room + 1) &&
           is_blank(&out->counts, sizeof out->counts) && is_blank(&out->fault, sizeof out->fault) == !fault;
}

/* Returns whether a call with a refused request did the same as one without. */
static int is_same(const outcome *part, const outcome *whole, uint32_t status) {
    if (status == TOML_SPAN_READ) return is_front(part, whole);
    return is_kept(part, status == TOML_SPAN_INVALID) && !memcmp(&part->fault, &whole->fault, sizeof part->fault);
}

static long runs, wrong;

static void told(int right, const char *name, const char *what, size_t which) {
    runs++;
    if (!right) {
        wrong++;
        printf("hold: %s: %s %zu is wrong\n", name, what, which);
    }
}

static void hold(const char *name) {
    outcome whole = {.room = length + 3, .strings_room = length + 3}, part;
    whole.nodes = __real_malloc((whole.room + 1) * sizeof *whole.nodes);
    whole.strings = __real_malloc(whole.strings_room + 1);
    asked = 0;
    refused = -1;
    uint32_t status = run(&whole);
    long requests = asked;
    part = whole;
    part.nodes = __real_malloc((whole.room + 1) * sizeof *part.nodes);
    part.strings = __real_malloc(whole.strings_room + 1);
    told(status == TOML_SPAN_READ || is_kept(&whole, status == TOML_SPAN_INVALID), name, "status", status);
    for (long at = 0; at < requests; at++) {
        asked = 0;
        refused = at;
        uint32_t answer = run(&part);
        told(answer == TOML_SPAN_MEMORY ? is_kept(&part, 0) : answer == status && is_same(&part, &whole, status), name,
             "refused request", (size_t)at);
    }
    refused = -1;
    if (status == TOML_SPAN_READ) {
        for (size_t room = 0; room <= whole.counts.nodes + 1; room++) {
            part.room = room;
            part.strings_room = room % (whole.counts.strings + 2);
            told(run(&part) == status && is_front(&part, &whole), name, "room", room);
        }
        for (size_t room = 0; room <= whole.counts.strings + 1; room++) {
            part.room = room % 3;
            part.strings_room = room;
            told(run(&part) == status && is_front(&part, &whole), name, "room for strings", room);
        }
    }
    free(whole.nodes);
    free(whole.strings);
    free(part.nodes);
    free(part.strings);
}

/* The arrays that toml_span_edit or toml_span_format fills. */
typedef struct {
    char out[1 << 17];
    size_t needed, refused;
    toml_span_fault fault;
} writing;

/* Makes this many changes, or calls the formatter. */
static uint32_t write_new(size_t count, writing *to) {
    static const toml_span_change changes[] = {{TOML_SPAN_SET_OR_ADD, "new.'a b'", "[1, {b = 2}]"},
                                               {TOML_SPAN_APPEND, "/new/a b", "\"x\""},
                                               {TOML_SPAN_INSERT, "new.\"a b\"[0]", "3"},
                                               {TOML_SPAN_REPLACE, "new.'a b'[1]", "[]"},
                                               {TOML_SPAN_ADD_TABLE, "more", NULL},
                                               {TOML_SPAN_MOVE, "new", "more.inner"},
                                               {TOML_SPAN_RENAME, "more.inner", "last"},
                                               {TOML_SPAN_REMOVE, "more", NULL},
                                               {TOML_SPAN_SET, "none", "1"}};
    memset(to, 0x5A, sizeof *to);
    if (count == 0) return toml_span_format(text, length, 60, 2, to->out, sizeof to->out, &to->needed, &to->fault);
    return toml_span_edit(text, length, changes, count, to->out, sizeof to->out, &to->needed, &to->refused, &to->fault);
}

static void hold_new(const char *name) {
    static writing whole, part;
    static const size_t counts[] = {0, 1, 8, 9};
    for (size_t at = 0; at < sizeof counts / sizeof *counts; at++) {
        asked = 0;
        refused = -1;
        uint32_t status = write_new(counts[at], &whole);
        long requests = asked;
        for (long request = 0; request < requests; request++) {
            asked = 0;
            refused = request;
            uint32_t answer = write_new(counts[at], &part);
            told(answer == TOML_SPAN_MEMORY ? is_blank(&part, sizeof part)
                                            : answer == status && !memcmp(&whole, &part, sizeof part),
                 name, "refused request of a new text", (size_t)request);
        }
        refused = -1;
        told(write_new(counts[at], &part) == status && !memcmp(&whole, &part, sizeof part), name, "new text",
             counts[at]);
    }
}

int main(int argc, char **argv) {
    for (int at = 1; at < argc; at++) {
        FILE *file = fopen(argv[at], "rb");
        if (!file) return 2;
        length = fread(text, 1, sizeof text, file);
        fclose(file);
        hold(argv[at]);
        hold_new(argv[at]);
    }
    printf("hold: %ld of %ld right, of %d documents\n", runs - wrong, runs, argc - 1);
    return wrong != 0 || argc < 2;
}
