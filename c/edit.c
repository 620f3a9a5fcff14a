/* toml_span_edit: splits the paths into segments, and calls toml_span_edit_paths, which makes the changes. That call is
 * proved, but this file is not. */
#include "paths.h"

#include <stdlib.h>

/* The structs and the function of crates/toml_span_c/src/edits.rt. */
typedef struct {
    const char *bytes;
    size_t length;
} segment;

typedef struct {
    const segment *at;
    size_t count;
} segments;

typedef struct {
    uint32_t change;
    segments path, target;
    const char *value;
    size_t value_length;
} change_record;

#ifdef __cplusplus
extern "C"
#endif
uint32_t toml_span_edit_paths(const char *text, size_t length, const change_record *changes, size_t count, char *out,
                              size_t room, size_t *needed, size_t *refused, toml_span_fault *fault);

/* Where the next segment and its bytes are to be written. */
typedef struct {
    segment *next;
    char *bytes;
} pen;

/* Writes a step as a segment: the bytes of its name or position. Returns 0 if the step is not valid, otherwise 1. */
static int put_step(path_step step, pen *at) {
    segment *written = at->next++;
    written->bytes = at->bytes;
    written->length = 0;
    if (step.written == '[' && position_of(step) == TOML_SPAN_NONE) return 0;
    while (step.at < step.end) {
        char bytes[4];
        size_t size = next_bytes(&step, bytes);
        if (size == 0) return 0;
        memcpy(at->bytes, bytes, size);
        at->bytes += size;
        written->length += size;
    }
    return 1;
}

/* Splits a path into segments, and stores them in `read`. Returns 0 if the path is not valid, otherwise 1. */
static int read_path(const char *path, pen *at, segments *read) {
    int is_pointer = *path == '/';
    read->at = at->next;
    read->count = 0;
    while (*path != 0) {
        path_step step;
        path = take_step(path, is_pointer, read->count == 0, &step);
        if (path == NULL || !put_step(step, at)) return 0;
        read->count++;
    }
    return 1;
}

static const char *or_empty(const char *words) { return words ? words : ""; }

uint32_t toml_span_edit(const char *text, size_t length, const toml_span_change *changes, size_t count, char *out,
                        size_t room, size_t *needed, size_t *refused, toml_span_fault *fault) {
    size_t bytes = 0;
    /* (a path has at most one segment more than it has bytes, and a segment takes no more bytes than its step) */
    for (size_t at = 0; at < count; at++)
        bytes += strlen(or_empty(changes[at].path)) + strlen(or_empty(changes[at].value)) + 2;
    char *block = (char *)malloc(count * sizeof(change_record) + bytes * (sizeof(segment) + 1) + 1);
    if (!block) return TOML_SPAN_MEMORY;
    change_record *records = (change_record *)(void *)block;
    pen at = {(segment *)(void *)(records + count), NULL};
    at.bytes = (char *)(at.next + bytes);
    for (size_t index = 0; index < count; index++) {
        const char *value = or_empty(changes[index].value);
        /* (0 marks a path that is not valid) */
        uint32_t change = changes[index].change ? changes[index].change : UINT32_MAX;
        change_record record = {change, {at.next, 0}, {at.next, 0}, value, strlen(value)};
        int is_read = read_path(or_empty(changes[index].path), &at, &record.path);
        if (is_read && change == TOML_SPAN_MOVE) is_read = read_path(value, &at, &record.target);
        if (!is_read) record.change = 0;
        records[index] = record;
    }
    uint32_t status = toml_span_edit_paths(text, length, records, count, out, room, needed, refused, fault);
    free(block);
    return status;
}
