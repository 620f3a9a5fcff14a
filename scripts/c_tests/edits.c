/* edits FILE..: tests toml_span_edit and toml_span_format with rows of data and with documents.
 *
 * For each document: no change leaves it as it is; a value that is set is then found; the formatted text has the same
 * number of values, and formatting it again changes nothing. For each length of `out`, either everything is written or,
 * if it is too short, nothing. */
#include "toml_span.h"

#include <stdio.h>
#include <stdlib.h>
#include <string.h>

enum { ROOM = 1 << 17 };
static char text[ROOM], out[ROOM], part[ROOM + 1];
static size_t length, needed, refused;
static toml_span_fault fault;
static long rows, wrong;

static void tell(int right, const char *of, const char *what, size_t which) {
    rows++;
    if (right) return;
    wrong++;
    printf("edits: %s: %s %zu is wrong: %.*s\n", of, what, which, (int)(needed < 200 ? needed : 200), out);
}

static void take(const char *words) {
    length = strlen(words);
    memcpy(text, words, length);
}

static uint32_t edit(uint32_t change, const char *path, const char *value) {
    toml_span_change one = {change, path, value};
    return toml_span_edit(text, length, &one, 1, out, ROOM, &needed, &refused, &fault);
}

static int is_out(const char *words) { return needed == strlen(words) && !memcmp(out, words, needed); }

/* Each row: a document, a change, and the new document, or the reason of the failure after a `!`. */
static const struct {
    const char *text;
    toml_span_change change;
    const char *wanted;
} changes[] = {
    {"a = 1 # one\n", {TOML_SPAN_SET, "a", "2"}, "a = 2 # one\n"},
    {"a = 1", {TOML_SPAN_SET, "/a", "[1, 2]"}, "a = [1, 2]"},
    {"a = 1", {TOML_SPAN_SET, "a", ""}, "!the new value is not a single TOML value"},
    {"a = 1", {TOML_SPAN_SET, "a", NULL}, "!the new value is not a single TOML value"},
    {"a = 1", {TOML_SPAN_SET, "a", "2\nb = 3"}, "!the new value is not a single TOML value"},
    {"a = 1", {TOML_SPAN_SET, "b", "2"}, "!there is nothing at this path"},
    {"a = 1", {TOML_SPAN_SET, "a.", "2"}, "!the path is neither a JSON Pointer nor a dotted key"},
    {"a = 1", {TOML_SPAN_SET, "\"\\q\"", "2"}, "!the path is neither a JSON Pointer nor a dotted key"},
    {"a = 1", {TOML_SPAN_SET, "a[x]", "2"}, "!the path is neither a JSON Pointer nor a dotted key"},
    {"a = 1", {TOML_SPAN_SET, "\"\xff\"", "2"}, "!the path or the value is not valid UTF-8"},
    {"a = 1", {TOML_SPAN_SET, "a", "'\xff'"}, "!the path or the value is not valid UTF-8"},
    {"a = 1", {0, "a", "2"}, "!unknown kind of change"},
    {"a = 1", {11, "a", "2"}, "!unknown kind of change"},
    {"a = 1", {UINT32_MAX, "a", "2"}, "!unknown kind of change"},
    {"[a]\nb = 1\n", {TOML_SPAN_SET, "a", "2"}, "!headers or dotted keys define this table or array"},
    {"[a]\nb = 1\n", {TOML_SPAN_REPLACE, "a", "2"}, "a = 2\n"},
    {"[a]\nb = 1\n", {TOML_SPAN_SET_OR_ADD, "a.c", "2"}, "[a]\nb = 1\nc = 2\n"},
    {"[a]\nb = 1\n", {TOML_SPAN_SET_OR_ADD, "a.b", "2"}, "[a]\nb = 2\n"},
    {"[a]\n[a.b]\na.c = 1\n", {TOML_SPAN_RENAME, "/a", "x y"}, "[\"x y\"]\n[\"x y\".b]\na.c = 1\n"},
    {"a = 1\nb = 2\n", {TOML_SPAN_RENAME, "a", "b"}, "!this path already has a value (line 2, column 1)"},
    {"a = 1 # one\n# two\nb = 2\n", {TOML_SPAN_REMOVE, "a", NULL}, "# two\nb = 2\n"},
    {"a = [1, 2, 3]", {TOML_SPAN_REMOVE, "a[1]", NULL}, "a = [1, 3]"},
    {"a = [1, 2, 3]", {TOML_SPAN_REMOVE, "/a/3", NULL}, "!there is nothing at this path"},
    {"a = 1", {TOML_SPAN_REMOVE, "", NULL}, "!the path names the whole document; set or remove the values in it instead"},
    {"a = 1", {TOML_SPAN_REMOVE, NULL, NULL}, "!the path names the whole document; set or remove the values in it instead"},
    {"[a]\n", {TOML_SPAN_ADD, "a.'b c'", "1"}, "[a]\n\"b c\" = 1\n"},
    {"[a]\n", {TOML_SPAN_ADD, "/a/b~1c~0", "1"}, "[a]\n\"b/c~\" = 1\n"},
    {"[a]\n", {TOML_SPAN_ADD, "a.\"\\u00e9\\U0001F600\"", "1"}, "[a]\n\"\xc3\xa9\xf0\x9f\x98\x80\" = 1\n"},
    {"a = 1", {TOML_SPAN_ADD, "a", "1"}, "!this path already has a value (line 1, column 1)"},
    {"a = 1\n", {TOML_SPAN_ADD_TABLE, "b.c", NULL}, "a = 1\n\n[b.c]\n"},
    {"a = [1]", {TOML_SPAN_APPEND, "a", "2"}, "a = [1, 2]"},
    {"a = 1", {TOML_SPAN_APPEND, "a", "2"}, "!the path does not name an array, or does not end with a position such as `[0]`"},
    {"a = [1]", {TOML_SPAN_INSERT, "a[0]", "2"}, "a = [2, 1]"},
    {"a = [1]", {TOML_SPAN_INSERT, "a.1", "2"}, "a = [1, 2]"},
    {"a = 1\n[b]\n", {TOML_SPAN_MOVE, "a", "b.c"}, "[b]\nc = 1\n"},
    {"a = 1\n[b]\n", {TOML_SPAN_MOVE, "a", "b."}, "!the path is neither a JSON Pointer nor a dotted key"},
    {"\r\n[a]\r\nb = 1\r\n", {TOML_SPAN_ADD, "a.c", "2"}, "\r\n[a]\r\nb = 1\r\nc = 2\r\n"},
};

static void look_at_changes(void) {
    for (size_t at = 0; at < sizeof changes / sizeof *changes; at++) {
        take(changes[at].text);
        const char *wanted = changes[at].wanted;
        uint32_t status = edit(changes[at].change.change, changes[at].change.path, changes[at].change.value);
        int right = *wanted == '!' ? status == TOML_SPAN_UNMADE && refused == 0 && needed >= strlen(wanted + 1) &&
                                         !memcmp(out, wanted + 1, strlen(wanted + 1))
                                   : status == TOML_SPAN_READ && is_out(wanted);
        tell(right, changes[at].text, "change", at);
    }
}

/* Checks that several changes are made one after the other, and that the first one that fails is named. */
static void look_at_several(void) {
    const toml_span_change several[] = {{TOML_SPAN_ADD, "b", "2"}, {TOML_SPAN_SET, "b", "[3]"},
                                        {TOML_SPAN_APPEND, "b", "4"}, {TOML_SPAN_REMOVE, "a", NULL},
                                        {TOML_SPAN_SET, "a", "5"}};
    const char *const wanted[] = {"a = 1", "a = 1\nb = 2\n", "a = 1\nb = [3]\n", "a = 1\nb = [3, 4]\n",
                                  "b = [3, 4]\n"};
    take("a = 1");
    for (size_t count = 0; count <= 4; count++) {
        uint32_t status = toml_span_edit(text, length, several, count, out, ROOM, &needed, &refused, &fault);
        tell(status == TOML_SPAN_READ && is_out(wanted[count]), "several", "count", count);
    }
    uint32_t status = toml_span_edit(text, length, several, 5, out, ROOM, &needed, &refused, &fault);
    tell(status == TOML_SPAN_UNMADE && refused == 4, "several", "refused", refused);
    static toml_span_change many[1000];
    for (size_t at = 0; at < 1000; at++) many[at] = (toml_span_change){TOML_SPAN_SET, "a", "7"};
    status = toml_span_edit(text, length, many, 1000, out, ROOM, &needed, &refused, &fault);
    tell(status == TOML_SPAN_READ && is_out("a = 7"), "several", "many", 1000);
}

/* A call of toml_span_edit or, without changes, of toml_span_format, with an array of this length. */
static uint32_t call(const toml_span_change *which, size_t count, char *to, size_t room) {
    if (which) return toml_span_edit(text, length, which, count, to, room, &needed, &refused, &fault);
    return toml_span_format(text, length, 80, 4, to, room, &needed, &fault);
}

static int is_blank(const char *bytes, size_t count) {
    for (size_t at = 0; at < count; at++)
        if (bytes[at] != 0x5A) return 0;
    return 1;
}

/* Checks that each array gets all or nothing, and as much of a reason as it has room for. */
static void look_at_rooms(const char *name, const toml_span_change *which, size_t count) {
    uint32_t status = call(which, count, out, ROOM);
    size_t whole = needed, most = whole < 300 ? whole + 2 : 300;
    if (status != TOML_SPAN_READ && status != TOML_SPAN_UNMADE) return;
    for (size_t step = 0; step <= 2 * most; step++) {
        size_t room = step <= most ? step : whole + most > step ? whole + most - step : 0;
        memset(part, 0x5A, whole + 4);
        uint32_t again = call(which, count, part, room);
        size_t written = room < whole ? (status == TOML_SPAN_UNMADE ? room : 0) : whole;
        tell(again == status && needed == whole && !memcmp(part, out, written) &&
                 is_blank(part + written, whole + 4 - written),
             name, "room", room);
    }
}

/* Checks that a call with other texts writes the expected text, and nothing else. */
static void look_at_faults(void) {
    const toml_span_change one = {TOML_SPAN_SET, "a", "1"};
    static const struct {
        const char *text;
        uint32_t status, code;
        size_t start, end;
    } texts[] = {{"a = 1\na = 2", TOML_SPAN_INVALID, 13, 6, 7},
                 {"=", TOML_SPAN_INVALID, 11, 0, 1},
                 {"a", TOML_SPAN_INVALID, 11, 1, 1},
                 {"a\xF0\x9F\x98\x80", TOML_SPAN_INVALID, 7, 1, 5},
                 {"a = '\xff'", TOML_SPAN_UNREAD, 0, 0, 0}};
    for (size_t at = 0; at < sizeof texts / sizeof *texts; at++)
        for (int which = 0; which < 2; which++) {
            take(texts[at].text);
            memset(part, 0x5A, 100);
            memset(&fault, 0, sizeof fault);
            needed = refused = 77;
            uint32_t status = call(which ? &one : NULL, 1, part, 100);
            tell(status == texts[at].status && needed == 77 && refused == 77 && is_blank(part, 100) &&
                     fault.code == texts[at].code && fault.span.start == texts[at].start &&
                     fault.span.end == texts[at].end,
                 texts[at].text, "fault", at);
        }
    static char *large;
    large = malloc(TOML_SPAN_LONGEST + 1);
    if (!large) exit(2);
    memset(large, '#', TOML_SPAN_LONGEST + 1);
    needed = 77;
    tell(toml_span_format(large, TOML_SPAN_LONGEST + 1, 80, 4, part, 9, &needed, &fault) == TOML_SPAN_UNREAD &&
             toml_span_edit(large, TOML_SPAN_LONGEST + 1, &one, 1, part, 9, &needed, &refused, &fault) ==
                 TOML_SPAN_UNREAD && needed == 77, "large", "status", 2);
    tell(toml_span_format(large, TOML_SPAN_LONGEST, 80, 4, part, 9, &needed, &fault) == TOML_SPAN_READ &&
             needed == TOML_SPAN_LONGEST + 1, "large", "format", 0);
    tell(toml_span_edit(large, TOML_SPAN_LONGEST, &one, 1, part, 9, &needed, &refused, &fault) == TOML_SPAN_UNMADE,
         "large", "edit", 0);
    free(large);
}

/* Each row: a text, the width and the indent, and the formatted text. */
static const struct {
    const char *text;
    size_t width, indent;
    const char *wanted;
} layouts[] = {
    {"", 80, 4, ""},
    {"a=1", 80, 4, "a = 1\n"},
    {"a = [1,2,\n3]\n", 80, 4, "a = [1, 2, 3]\n"},
    {"a = [1,2]\n", 9, 2, "a = [\n  1,\n  2,\n]\n"},
    {"a = [1,2]\n", 10, 2, "a = [1, 2]\n"},
    {"a = [1]\n", 0, 0, "a = [\n1,\n]\n"},
    {"a = [1]\n", SIZE_MAX, SIZE_MAX, "a = [1]\n"},
};

static void look_at_layouts(void) {
    for (size_t at = 0; at < sizeof layouts / sizeof *layouts; at++) {
        take(layouts[at].text);
        uint32_t status = toml_span_format(text, length, layouts[at].width, layouts[at].indent, out, ROOM, &needed,
                                           &fault);
        tell(status == TOML_SPAN_READ && is_out(layouts[at].wanted), layouts[at].text, "layout", at);
    }
    take("a = [1,]\n");
    uint32_t status = toml_span_format(text, length, 100, SIZE_MAX, out, ROOM, &needed, &fault);
    tell(status == TOML_SPAN_READ && needed == 8 + 64 + 2 + 1, "an indent", "of at most", 64);
}

static size_t values_of(const char *of, size_t size) {
    toml_span_counts counts = {0, 0};
    toml_span_node node;
    char byte;
    if (toml_span_parse(of, size, &node, 0, &byte, 0, &counts, &fault) != TOML_SPAN_READ) return 0;
    return counts.nodes;
}

static void look_at(const char *name) {
    size_t values = values_of(text, length);
    const toml_span_change set = {TOML_SPAN_SET_OR_ADD, "/new table/x", "'y'"};
    if (values == 0) {
        tell(call(NULL, 0, out, ROOM) == call(&set, 1, out, ROOM), name, "status", 0);
        return;
    }
    tell(call(&set, 0, out, ROOM) == TOML_SPAN_READ && needed == length && !memcmp(out, text, length), name, "copy", 0);
    tell(call(&set, 1, out, ROOM) == TOML_SPAN_READ && values_of(out, needed) == values + 2, name, "addition", 0);
    look_at_rooms(name, &set, 1);
    look_at_rooms(name, NULL, 0);
    tell(call(NULL, 0, out, ROOM) == TOML_SPAN_READ && values_of(out, needed) == values, name, "format", 0);
    size_t formatted = needed;
    memcpy(text, out, needed);
    length = needed;
    tell(call(NULL, 0, out, ROOM) == TOML_SPAN_READ && needed == formatted && !memcmp(out, text, needed), name,
         "again", 0);
}

int main(int argc, char **argv) {
    for (int at = 1; at < argc; at++) {
        FILE *file = fopen(argv[at], "rb");
        if (!file) return 2;
        length = fread(text, 1, sizeof text, file);
        fclose(file);
        look_at(argv[at]);
    }
    long documents = rows;
    look_at_changes();
    look_at_several();
    look_at_faults();
    look_at_layouts();
    take("a = 1");
    const toml_span_change bad = {TOML_SPAN_SET, "b", "2"};
    look_at_rooms("a reason", &bad, 1);
    printf("edits: %ld of %ld right\n", rows - wrong, rows);
    return wrong != 0 || documents == 0;
}
