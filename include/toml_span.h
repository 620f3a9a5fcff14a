/* toml_span: parses, edits and formats TOML 1.1. A parse returns the byte range of each value and each key.
 *
 *     toml_span_counts counts;
 *     toml_span_fault fault;
 *     uint32_t status = toml_span_parse(text, length, nodes, room, strings, strings_room, &counts, &fault);
 *
 * The caller owns all memory: a call fills the caller's arrays, keeps no state, and returns nothing that must be freed.
 * It frees what it allocates with malloc before it returns. So any number of threads may call it at once, and the
 * records stay valid as long as the arrays and the text do.
 *
 * - No pointer may be null, even if its length or room is 0, except in a toml_span_change. The arrays must not
 *   overlap.
 * - The text needs no zero byte at its end.
 * - Offsets are bytes of the text, counted from 0; an end is exclusive. Lines and columns are counted from 0, columns
 *   in bytes. A byte order mark takes 3 columns of its line, but none in a report.
 * - A call takes less than TOML_SPAN_STACK bytes of stack. Do not call it from a signal handler.
 * - The library is for 64-bit Linux on x86-64 processors of level x86-64-v2 or above (any since about 2009).
 *
 * Link with libtoml_span.a or libtoml_span.so: `cc main.c $(pkg-config --cflags --libs toml_span)`. */
#ifndef TOML_SPAN_H
#define TOML_SPAN_H

#include <stddef.h>
#include <stdint.h>

#ifdef __cplusplus
extern "C" {
#endif

#define TOML_SPAN_VERSION "0.7.2"

/* The version of the binary interface, as in libtoml_span.so.0: it changes if a function or a record changes. */
#define TOML_SPAN_ABI 0

/* The status that a call returns. */
enum {
    TOML_SPAN_READ = 0,    /* the text is valid TOML */
    TOML_SPAN_INVALID = 1, /* the text is not valid TOML */
    TOML_SPAN_UNREAD = 2,  /* the text is not UTF-8, or longer than TOML_SPAN_LONGEST */
    TOML_SPAN_UNMADE = 3,  /* toml_span_edit: a change was refused */
    TOML_SPAN_MEMORY = 4   /* out of memory: malloc failed */
};

/* The maximum length of a document in bytes: 16 MiB. */
#define TOML_SPAN_LONGEST 16777216

/* Stack that is enough for any document, in bytes. At most 587 KiB were measured, in the build without run-time checks:
 * for a move in a document of 128 nested arrays of tables, with a dotted key of 128 parts in the innermost. */
#define TOML_SPAN_STACK 720896

/* The kinds of values. A datetime is a date, a time or both, with or without an offset. */
enum {
    TOML_SPAN_STRING = 1,
    TOML_SPAN_INTEGER = 2,
    TOML_SPAN_FLOAT = 3,
    TOML_SPAN_BOOLEAN = 4,
    TOML_SPAN_DATETIME = 5,
    TOML_SPAN_ARRAY = 6,
    TOML_SPAN_TABLE = 7
};

/* The index of a record that does not exist: the parent of the root, and the result of toml_span_find if it finds
 * nothing. */
#define TOML_SPAN_NONE SIZE_MAX

/* A range of bytes of the text, from `start` to `end`, exclusive. */
typedef struct {
    size_t start, end;
} toml_span_range;

/* The bytes of a name or of a value's text. With `const char *sources[] = {text, strings};` they begin at
 * `sources[source] + at`, and no zero byte follows them. They are in the document (source 0) if it has them unchanged
 * at the span. Otherwise they are in `strings` (source 1). This is so for a name or string with escapes, for a string
 * with CRLF line ends, which become LF, and for a float with `+`, `_` or `e`. Such a float has neither `+` nor `_` in
 * `strings`, and `E` instead of `e`. */
typedef struct {
    size_t source, at, length;
} toml_span_text;

/* A value. The root comes first, and each value comes before those inside it. The elements of an array are in order.
 * The entries of a table are in the order of their names, by bytes (toml_span_sort changes that). */
typedef struct {
    uint32_t kind;            /* TOML_SPAN_STRING and so on */
    uint32_t boolean;         /* 1 for `true`; otherwise 0 */
    toml_span_range span;     /* the bytes of the value; for a string, those between its quotes */
    toml_span_range key_span; /* the bytes of its key; 0..0 for elements and the root */
    toml_span_text key;       /* its name in the table; empty (source 0, at 0) for elements and the root */
    toml_span_text text;      /* the text of a string, a float or a datetime; otherwise empty (source 0, at 0) */
    size_t parent;            /* the index of its parent's record; TOML_SPAN_NONE for the root */
    size_t position;          /* its position among its parent's children, counted from 0 */
    size_t children;          /* the number of elements or entries; otherwise 0 */
    size_t next;              /* the index of the first record after those inside it: its next sibling, if it has one.
                                 Its first child, if it has one, is the record right after it. */
    int64_t integer;          /* the value of an integer; otherwise 0 */
    double number;            /* the value of a float, the double nearest to its text; otherwise 0.0 */
} toml_span_node;

/* The number of records of a document, and of bytes in its strings. */
typedef struct {
    size_t nodes, strings;
} toml_span_counts;

/* Why a text is not valid TOML. */
typedef struct {
    uint32_t code;         /* the kind of error, from 1 on: toml_span_code writes its name */
    uint32_t has_first;    /* 1 if `first` is set: the error is also about an earlier key, table or value; else 0 */
    toml_span_range span;  /* the bytes that are wrong: whole characters of the text, or none of them at its end */
    toml_span_range first; /* the bytes of the earlier key, table or value; otherwise 0..0 */
    size_t line, column;   /* the line and the column of span.start */
} toml_span_fault;

/* A line and a column. */
typedef struct {
    size_t line, column;
} toml_span_place;

/* Parses a text. Like snprintf, it writes as many records and bytes of strings as fit, and sets `counts` to the numbers
 * of all of them. If counts->nodes <= room and counts->strings <= strings_room, everything was written; otherwise call
 * it again with room for the counts. With room for 2 * length + 1 records and `length` bytes of strings, one call is
 * enough.
 *
 * If the status is READ, it writes the records, the strings and the counts. If it is INVALID, it writes the fault. It
 * writes nothing else; the rest of the arrays is unchanged. */
uint32_t toml_span_parse(const char *text, size_t length, toml_span_node *nodes, size_t room, char *strings,
                         size_t strings_room, toml_span_counts *counts, toml_span_fault *fault);

/* Parses a text, and returns only the status, as toml_span_parse does. */
uint32_t toml_span_check(const char *text, size_t length);

/* Writes the name of a fault's code, such as `duplicate-key`, or nothing if there is no such code. It writes as much as
 * fits, without a zero byte at the end, and sets `needed` to the length of the whole name. */
void toml_span_code(uint32_t code, char *out, size_t room, size_t *needed);

/* Writes the headline of a text's report, such as "duplicate key: `port`". It parses the text again, and returns the
 * status; it writes `out` and `needed` only if the status is INVALID or UNREAD. If `needed` is more than `room`, `out`
 * is not the headline: call again with that much room, which sets `needed` to the headline's length. */
uint32_t toml_span_message(const char *text, size_t length, char *out, size_t room, size_t *needed);

/* Writes the report of a text's fault, as toml_span_code writes a name: the name of the file, and the source lines with
 * marks, as `toml-span check` prints them. If the status is UNREAD, the report says why: a line of other characters
 * than those of ASCII is then left out. If the name is not UTF-8, the file is called `?`. */
uint32_t toml_span_report(const char *text, size_t length, const char *name, size_t name_length, char *out, size_t room,
                          size_t *needed);

/* ---- The calls that write a new text. If the status is READ, they set `needed` to its length, and write it to `out`
 * if it fits; otherwise call again with that much room. If the status is INVALID, they write the fault. They write
 * nothing else, except for the reason of a refused change (see toml_span_edit). */

/* What a change does at its path. A value is written as TOML, such as 8080, "text" with its quotes, or [1, 2]. */
enum {
    TOML_SPAN_SET = 1,        /* replaces the value, unless headers or dotted keys define it */
    TOML_SPAN_REPLACE = 2,    /* replaces the value, even if headers or dotted keys define it */
    TOML_SPAN_SET_OR_ADD = 3, /* replaces the value, or adds it with the missing tables on the way */
    TOML_SPAN_RENAME = 4,     /* renames the key to `value`, which has no quotes */
    TOML_SPAN_REMOVE = 5,     /* removes the value with its key, or the element */
    TOML_SPAN_ADD = 6,        /* adds the value to an existing table; the last step of the path is the new key */
    TOML_SPAN_ADD_TABLE = 7,  /* adds an empty table, with the missing tables on the way */
    TOML_SPAN_APPEND = 8,     /* adds the value at the end of an array, or adds an array with it */
    TOML_SPAN_INSERT = 9,     /* adds the value before the element at the path, or at the end of the array */
    TOML_SPAN_MOVE = 10       /* moves the value to the path `value`: where no value is, or into an array */
};

/* A change. Both strings end with a zero byte; null is the same as an empty string. The path is written as for
 * toml_span_find; `[0]` is the same as `.0`. REMOVE and ADD_TABLE ignore the value. */
typedef struct {
    uint32_t change;
    const char *path, *value;
} toml_span_change;

/* Makes changes, one after the other, and leaves all other bytes as they are. UNMADE means that a change was refused:
 * then `refused` is its index, counted from 0, and the reason is written as toml_span_code writes a name. */
uint32_t toml_span_edit(const char *text, size_t length, const toml_span_change *changes, size_t count, char *out,
                        size_t room, size_t *needed, size_t *refused, toml_span_fault *fault);

/* Formats a text. An array is written on one line if the line then has at most `width` columns (usually 80). Otherwise
 * each element is on a line of its own, indented by `indent` spaces (usually 4, at most 64) per level, but never by
 * more than `width`. The status UNMADE is only possible through a bug. */
uint32_t toml_span_format(const char *text, size_t length, size_t width, size_t indent, char *out, size_t room,
                          size_t *needed, toml_span_fault *fault);

/* ---- The calls below use only the records. */

/* Visits the children of a record: TOML_SPAN_EACH(nodes, 0, child) printf("%zu\n", nodes[child].span.start); */
#define TOML_SPAN_EACH(nodes, parent, child) \
    for (size_t child = (parent) + 1; child < (nodes)[parent].next; child = (nodes)[child].next)

/* Finds a value by its path from the record with the index `from`, which is 0 for the root. A path that begins with a
 * slash is a JSON Pointer (RFC 6901), such as "/server/ports/0"; any other is a dotted key with positions in brackets,
 * such as "server.ports[0]" or "dependencies.\"a/b\"". Returns the index of the record, or TOML_SPAN_NONE. `sources` is
 * {text, strings}, and `count` the number of records in the array: those that did not fit are not found. */
size_t toml_span_find(const toml_span_node *nodes, size_t count, const char *const sources[2], size_t from,
                      const char *path);

/* Copies the records of a document to `sorted`, with the entries of each table in the order in which the text first
 * names them. The fields `parent`, `position` and `next` are adapted to the new order. The array must have all records:
 * `count` is counts.nodes. */
void toml_span_sort(const toml_span_node *nodes, size_t count, toml_span_node *sorted);

/* Writes the value of the record with the index `from`, and all values inside it, as a Python pickle (protocol 4):
 * tables as dicts, arrays as lists. A datetime is written as a persistent id, the index of its record, and so is a
 * float if `floats` is not 0. The call writes to `out` as toml_span_code does. The arrays must have all records and
 * strings. */
void toml_span_pickle(const toml_span_node *nodes, size_t from, const char *const sources[2], int floats, char *out,
                      size_t room, size_t *needed);

/* Returns the name of a kind, such as "integer", or "" if there is no such kind. */
const char *toml_span_kind_name(uint32_t kind);

/* Returns the line and the column of an offset, in time linear in the offset. */
toml_span_place toml_span_line_column(const char *text, size_t length, size_t offset);

#if defined(__cplusplus)
#define TOML_SPAN_ASSERT(condition, message) static_assert(condition, message);
#elif defined(__STDC_VERSION__) && __STDC_VERSION__ >= 201112L
#define TOML_SPAN_ASSERT(condition, message) _Static_assert(condition, message);
#else
#define TOML_SPAN_ASSERT(condition, message)
#endif
TOML_SPAN_ASSERT(sizeof(size_t) == 8, "toml_span is built for 64 bits")
TOML_SPAN_ASSERT(sizeof(toml_span_node) == 136, "the records have no gaps")
TOML_SPAN_ASSERT(sizeof(toml_span_fault) == 56, "the faults have no gaps")
TOML_SPAN_ASSERT(sizeof(toml_span_change) == 24, "a change is a number and two pointers")
#undef TOML_SPAN_ASSERT

#ifdef __cplusplus
}
#endif

#endif
