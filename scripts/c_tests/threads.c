/* threads FILE..: tests that eight threads that parse, edit and format at once get the same results as one thread, and
 * how much stack the deepest documents take. */
#define _GNU_SOURCE
#include "toml_span.h"

#include <pthread.h>
#include <stdio.h>
#include <stdlib.h>
#include <string.h>

enum { THREADS = 8, ROUNDS = 50, ROOM = 4096, STACK = 1 << 20, LEVELS = 128 };

typedef struct {
    const char *text;
    size_t length;
    toml_span_node nodes[ROOM];
    char strings[ROOM];
    toml_span_counts counts;
    toml_span_fault fault;
    uint32_t status;
    /* the change that is made instead of a parse; the path "*" means the formatter */
    toml_span_change change;
    char out[4 * ROOM];
    size_t needed, refused;
} job;

static void do_once(job *mine) {
    const char *path = mine->change.path;
    if (path == NULL)
        mine->status = toml_span_parse(mine->text, mine->length, mine->nodes, ROOM, mine->strings, ROOM, &mine->counts,
                                       &mine->fault);
    else if (*path == '*')
        mine->status = toml_span_format(mine->text, mine->length, 80, 4, mine->out, sizeof mine->out, &mine->needed,
                                        &mine->fault);
    else
        mine->status = toml_span_edit(mine->text, mine->length, &mine->change, 1, mine->out, sizeof mine->out,
                                      &mine->needed, &mine->refused, &mine->fault);
}

static void *work(void *given) {
    job *mine = given;
    static const toml_span_change whats[] = {{0, NULL, NULL}, {0, "*", NULL}, {TOML_SPAN_SET_OR_ADD, "new.x", "1"}};
    for (int round = 0; round < ROUNDS; round++) {
        mine->change = whats[round % 3];
        do_once(mine);
    }
    return NULL;
}

static int same_everywhere(const char *text, size_t length) {
    static job jobs[THREADS + 1];
    pthread_t threads[THREADS];
    for (int at = 0; at <= THREADS; at++) {
        memset(&jobs[at], 0, sizeof jobs[at]);
        jobs[at].text = text;
        jobs[at].length = length;
    }
    work(&jobs[THREADS]);
    for (int at = 0; at < THREADS; at++) pthread_create(&threads[at], NULL, work, &jobs[at]);
    int same = 1;
    for (int at = 0; at < THREADS; at++) {
        pthread_join(threads[at], NULL);
        same &= !memcmp(&jobs[at], &jobs[THREADS], sizeof jobs[at]);
    }
    return same;
}

static void *deep(void *given) {
    do_once(given);
    return NULL;
}

/* Returns how much of a thread's stack a call overwrites. */
static size_t stack_of_call(const char *text, toml_span_change change) {
    static job one;
    static unsigned char *stack;
    if (!stack && posix_memalign((void **)&stack, 4096, STACK)) exit(2);
    memset(stack, 0xA5, STACK);
    one.text = text;
    one.length = strlen(text);
    one.change = change;
    pthread_attr_t how;
    pthread_t thread;
    pthread_attr_init(&how);
    pthread_attr_setstack(&how, stack, STACK);
    pthread_create(&thread, &how, deep, &one);
    pthread_join(thread, NULL);
    if (one.status != TOML_SPAN_READ && one.status != TOML_SPAN_UNMADE)
        printf("threads: a deep document has status %u\n", one.status);
    size_t low = 0;
    while (low < STACK && stack[low] == 0xA5) low++;
    return one.status == TOML_SPAN_READ || one.status == TOML_SPAN_UNMADE ? STACK - low : STACK;
}

/* Returns the most stack that any call takes: a parse, the formatter, and changes, also of the deepest value. */
static size_t stack_of(const char *text, const char *deepest) {
    static const toml_span_change whats[] = {{0, NULL, NULL}, {0, "*", NULL}};
    static char value[4 * LEVELS];
    memset(value, 0, sizeof value);
    memset(value, '[', LEVELS - 2), memset(value + LEVELS - 2, ']', LEVELS - 2);
    size_t most = 0;
    for (size_t at = 0; at < 2; at++) {
        size_t size = stack_of_call(text, whats[at]);
        most = size > most ? size : most;
    }
    for (uint32_t change = TOML_SPAN_SET; change <= TOML_SPAN_MOVE; change++)
        for (int deep = 0; deep < 2; deep++) {
            int named = change == TOML_SPAN_RENAME || change == TOML_SPAN_MOVE;
            toml_span_change one = {change, deep ? deepest : "a", named ? "moved" : deep ? "1" : value};
            size_t size = stack_of_call(text, one);
            most = size > most ? size : most;
        }
    return most;
}

static char *repeat(char *end, const char *words, int times) {
    while (times-- > 0) end += sprintf(end, "%s", words);
    return end;
}

/* Writes a header with a key of this many segments. */
static char *header(char *end, int parts, const char *open, const char *close) {
    end = repeat(end + sprintf(end, "%s", open), "a.", parts - 1);
    return end + sprintf(end, "a%s\n", close);
}

int main(int argc, char **argv) {
    static char text[1 << 16];
    int right = 0;
    for (int at = 1; at < argc; at++) {
        FILE *file = fopen(argv[at], "rb");
        if (!file) return 2;
        size_t length = fread(text, 1, sizeof text, file);
        fclose(file);
        right += same_everywhere(text, length);
    }
    /* the deepest documents: arrays in arrays; below a header, inline tables or a dotted key; below nested arrays of
     * tables, a dotted key, which takes the most stack */
    size_t most[4];
    char *end = repeat(text, "a=", 1);
    repeat(repeat(end, "[", LEVELS - 2), "]", LEVELS - 2);
    static char path[8 * LEVELS];
    repeat(repeat(path, "a", 1), "[0]", LEVELS - 3);
    most[0] = stack_of(text, path);
    end = repeat(header(text, LEVELS, "[", "]"), "b=", 1);
    repeat(repeat(repeat(end, "{a=", LEVELS / 2 - 1), "1", 1), "}", LEVELS / 2 - 1);
    repeat(repeat(repeat(path, "/a", LEVELS), "/b", 1), "/a", LEVELS / 2 - 1);
    most[1] = stack_of(text, path);
    end = header(text, LEVELS, "[", "]");
    repeat(repeat(end, "b.", LEVELS - 1), "b=1", 1);
    repeat(repeat(path, "/a", LEVELS), "/b", LEVELS);
    most[2] = stack_of(text, path);
    end = text;
    for (int parts = 1; parts <= LEVELS; parts++) end = header(end, parts, "[[", "]]");
    repeat(repeat(end, "b.", LEVELS - 1), "b=1", 1);
    repeat(repeat(path, "/a/0", LEVELS), "/b", LEVELS);
    most[3] = stack_of(text, path);
    printf("threads: %d of %d documents the same in %d threads; the deepest take %zu, %zu, %zu, %zu bytes of stack\n",
           right, argc - 1, THREADS, most[0], most[1], most[2], most[3]);
    for (int at = 0; at < 4; at++) right -= most[at] >= TOML_SPAN_STACK;
    return right != argc - 1;
}
