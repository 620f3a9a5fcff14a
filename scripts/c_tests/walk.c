/* walk FILE..: tests the calls that read only the records, and the paths of edits, with rows of data and documents.
 *
 * It is compiled with c/records.c, c/edit.c and sanitizers. */
#include "toml_span.h"

#include <stdio.h>
#include <stdlib.h>
#include <string.h>

enum { ROOM = 1 << 16 };
static toml_span_node nodes[ROOM], sorted[ROOM];
static char text[ROOM], strings[ROOM];
static const char *const sources[] = {text, strings};
static toml_span_counts counts;
static size_t length;
static long rows, wrong;

static void tell(int right, const char *of, const char *what, size_t which) {
    rows++;
    if (right) return;
    wrong++;
    printf("walk: %s: %s %zu is wrong\n", of, what, which);
}

static int is_read(void) {
    toml_span_fault fault;
    return toml_span_parse(text, length, nodes, ROOM, strings, ROOM, &counts, &fault) == TOML_SPAN_READ;
}

/* Returns whether a record of a sorted document is in its place, after its siblings and everything in them. */
static int is_in_place(size_t at) {
    const toml_span_node *node = &sorted[at], *parent = &sorted[node->parent];
    size_t before = node->parent + 1, position = 0;
    for (; before < at && position < node->position; before = sorted[before].next) position++;
    return before == at && position == node->position && position < parent->children && node->next > at &&
           node->next <= parent->next;
}

/* Returns whether the sorted records include each of the document's records with the same bytes. */
static int has_all(void) {
    static unsigned char seen[ROOM];
    memset(seen, 0, sizeof seen);
    for (size_t at = 0; at < counts.nodes; at++) {
        size_t other = 0;
        while (other < counts.nodes &&
               (seen[other] || nodes[other].kind != sorted[at].kind ||
                memcmp(&nodes[other].span, &sorted[at].span, offsetof(toml_span_node, parent) - 8) != 0))
            other++;
        if (other == counts.nodes) return 0;
        seen[other] = 1;
    }
    return 1;
}

/* Checks that an array of each length gets a prefix of the pickle, and that nothing else is written. */
static int has_fronts(void) {
    static char whole[ROOM], part[ROOM + 1];
    size_t needed = 0, again = 0;
    toml_span_pickle(sorted, 0, sources, 1, whole, ROOM, &needed);
    for (size_t room = 0; room < needed; room++) {
        memset(part, 0x5A, room + 1);
        toml_span_pickle(sorted, 0, sources, 1, part, room, &again);
        /* (the length in the head is written last, so a head that is cut off has none) */
        if (again != needed || part[room] != 0x5A || (room > 11 && memcmp(part, whole, room) != 0)) return 0;
    }
    return needed < ROOM && whole[needed - 1] == '.';
}

static void look(const char *name) {
    if (!is_read()) return;
    toml_span_sort(nodes, counts.nodes, sorted);
    for (size_t at = 1; at < counts.nodes; at++) tell(is_in_place(at), name, "record", at);
    tell(sorted[0].parent == TOML_SPAN_NONE && sorted[0].next == counts.nodes && !sorted[0].position, name, "root", 0);
    tell(has_all(), name, "the set of records", counts.nodes);
    tell(has_fronts(), name, "pickle", 0);
}

/* Each row: a document, a path in it, and the bytes of the value there, or -1 if no value is there. */
static const struct {
    const char *text, *path;
    int start, end;
} finds[] = {
    {"a = 1", "", 0, 5},
    {"a = 1", "/a", 4, 5},
    {"a = 1", "a", 4, 5},
    {"a = 1", "b", -1, 0},
    {"a = 1", "/", -1, 0},
    {"a = 1", "/ab", -1, 0},
    {"ab = 1", "/a", -1, 0},
    {"a = 1", "/a/b", -1, 0},
    {"'' = 1", "/", 5, 6},
    {"b = 1\na = 2", "/b", 4, 5},
    {"a = [1, [2, 3]]", "/a/1/1", 12, 13},
    {"a = [1, [2, 3]]", "/a/01", -1, 0},
    {"a = [1, [2, 3]]", "/a/2", -1, 0},
    {"a = [1, [2, 3]]", "/a/-1", -1, 0},
    {"a = [1, [2, 3]]", "/a/", -1, 0},
    {"a = [1]", "/a/18446744073709551616", -1, 0},
    {"'a/b~c~1' = 1\n0 = 2", "/a~1b~0c~01", 12, 13},
    {"'a/b~c~1' = 1\n0 = 2", "/0", 18, 19},
    {"\"\\u0061\" = 1", "/a", 11, 12},
    {"[[a]]\n[[a]]\nb = 7", "/a/1/b", 16, 17},
    {"[[a]]\n[[a]]\nb = 7", "a[1].b", 16, 17},
    {"[[a]]\n[[a]]\nb = 7", "a [1]\t. b ", 16, 17},
    {"[[a]]\n[[a]]\nb = 7", "a.1.b", -1, 0},
    {"[[a]]\n[[a]]\nb = 7", "a[01].b", -1, 0},
    {"[[a]]\n[[a]]\nb = 7", "a[1]b", -1, 0},
    {"[[a]]\n[[a]]\nb = 7", "a[1", -1, 0},
    {"[[a]]\n[[a]]\nb = 7", "a.", -1, 0},
    {"[[a]]\n[[a]]\nb = 7", ".a", -1, 0},
    {"[[a]]\n[[a]]\nb = 7", "[0]", -1, 0},
    {"'a/b' = {'' = 3}", "\"a/b\".''", 14, 15},
    {"'a/b' = {'' = 3}", "'a\\u002Fb'.''", -1, 0},
    {"'a/b' = {'' = 3}", "\"a\\u002Fb\" . \"\"", 14, 15},
    {"'a/b' = {'' = 3}", "\"a/b", -1, 0},
    {"'a/b' = {'' = 3}", "a/b", -1, 0},
    {"\"\xf0\x9f\x98\x80\\e\" = 4", "\"\\U0001F600\\x1B\"", 11, 12},
    {"\"\xf0\x9f\x98\x80\\e\" = 4", "\"\\uD83D\\uDE00\\e\"", -1, 0},
    {"'\"' = 5", "\"\\\"\"", 6, 7},
};

/* In place of the proved call: writes down each segment after its length, and a `>` before a target. */
typedef struct {
    const char *bytes;
    size_t length;
} segment;

typedef struct {
    uint32_t change;
    const segment *path;
    size_t path_length;
    const segment *target;
    size_t target_length;
    const char *value;
    size_t value_length;
} change_record;

uint32_t toml_span_edit_paths(const char *of, size_t size, const change_record *changes, size_t count, char *out,
                              size_t room, size_t *needed, size_t *refused, toml_span_fault *fault);

static char *put_segments(char *end, const segment *segments, size_t count) {
    for (size_t at = 0; at < count; at++) {
        end += sprintf(end, "%zu", segments[at].length);
        memcpy(end, segments[at].bytes, segments[at].length);
        end += segments[at].length;
    }
    return end;
}

uint32_t toml_span_edit_paths(const char *of, size_t size, const change_record *changes, size_t count, char *out,
                              size_t room, size_t *needed, size_t *refused, toml_span_fault *fault) {
    char *end = out;
    for (size_t at = 0; at < count; at++) {
        end += sprintf(end, "%c", changes[at].change == 0 ? '!' : '=');
        if (changes[at].change == 0) continue;
        end = put_segments(end, changes[at].path, changes[at].path_length);
        if (changes[at].target_length > 0) end = put_segments(end + sprintf(end, ">"), changes[at].target,
                                                              changes[at].target_length);
    }
    *needed = (size_t)(end - out);
    return of != text || size != length || room != ROOM || *refused != 7 || fault == NULL;
}

/* Each row: a path and its segments, or a `!` if it is not a path. */
static const struct {
    const char *path, *wanted;
} paths[] = {
    {"", "="},
    {"/", "=0"},
    {"/a/", "=1a0"},
    {"/a/0", "=1a10"},
    {"/a~1b~0c~01/-", "=7a/b~c~11-"},
    {"a.b.c", "=1a1b1c"},
    {" a [1]\t. b ", "=1a111b"},
    {"a[0][12]", "=1a10212"},
    {"\"a/b\".''.'\\u'", "=3a/b02\\u"},
    {"\"\\u00e9\\x41\\e\\t\\\\\"", "=6\xc3\xa9" "A\033\t\\"},
    {"\"\\u0000\"", "=1\0"},
    {"-_9", "=3-_9"},
    {"a[01]", "!"},
    {"a[-1]", "!"},
    {"a[]", "!"},
    {"a[1", "!"},
    {"a]", "!"},
    {"a.", "!"},
    {".a", "!"},
    {"a..b", "!"},
    {"a b", "!"},
    {"a/b", "!"},
    {" ", "!"},
    {"\"a", "!"},
    {"'a", "!"},
    {"\"\\\"", "!"},
    {"\"\\ud800\"", "!"},
    {"\"\\U00110000\"", "!"},
    {"\xc3\xa9", "!"},
};

static void look_at_paths(void) {
    static char out[ROOM];
    toml_span_fault fault;
    for (size_t at = 0; at < sizeof paths / sizeof *paths; at++) {
        const toml_span_change two[] = {{TOML_SPAN_SET, paths[at].path, "a.b"}, {TOML_SPAN_MOVE, "a", paths[at].path}};
        size_t needed = 0, refused = 7, wanted = strlen(paths[at].wanted);
        if (!strcmp(paths[at].wanted, "=1")) wanted = 3;
        uint32_t status = toml_span_edit(text, length, two, 2, out, ROOM, &needed, &refused, &fault);
        int is_path = *paths[at].wanted == '=', is_root = wanted == 1 && is_path;
        char other[64], *end = other + sprintf(other, is_path ? is_root ? "=1a" : "=1a>" : "!");
        memcpy(end, paths[at].wanted + 1, wanted - 1);
        end += wanted - 1;
        tell(status == 0 && needed == wanted + (size_t)(end - other) && !memcmp(out, paths[at].wanted, wanted) &&
                 !memcmp(out + wanted, other, (size_t)(end - other)),
             paths[at].path, "path", at);
    }
}

/* Each row: a text, an offset, and its line and column. */
static const struct {
    const char *text;
    size_t offset, line, column;
} places[] = {
    {"", 0, 0, 0},        {"ab", 1, 0, 1},   {"ab", 9, 0, 2},
    {"a\nb", 1, 0, 1}, {"a\nb", 2, 1, 0}, {"a\r\n\n\xc3\xa9x", 6, 2, 2},
};

static void take(const char *words) {
    length = strlen(words);
    memcpy(text, words, length);
}

int main(int argc, char **argv) {
    for (int at = 1; at < argc; at++) {
        FILE *file = fopen(argv[at], "rb");
        if (!file) return 2;
        length = fread(text, 1, sizeof text, file);
        fclose(file);
        look(argv[at]);
    }
    long documents = rows;
    for (size_t at = 0; at < sizeof finds / sizeof *finds; at++) {
        take(finds[at].text);
        size_t found = is_read() ? toml_span_find(nodes, counts.nodes, sources, 0, finds[at].path) : 99;
        int right = found == TOML_SPAN_NONE ? finds[at].start == -1
                                            : found < counts.nodes && (int)nodes[found].span.start == finds[at].start &&
                                                  (int)nodes[found].span.end == finds[at].end;
        tell(right, finds[at].text, "find", at);
        for (size_t count = 0; count < counts.nodes; count++) {
            size_t other = toml_span_find(nodes, count, sources, 0, finds[at].path);
            tell(other == TOML_SPAN_NONE || other == found, finds[at].text, "find in fewer records", at);
        }
    }
    for (size_t at = 0; at < sizeof places / sizeof *places; at++) {
        take(places[at].text);
        toml_span_place place = toml_span_line_column(text, length, places[at].offset);
        tell(place.line == places[at].line && place.column == places[at].column, places[at].text, "place", at);
    }
    const char *const names[] = {"", "string", "integer", "float", "boolean", "datetime", "array", "table", ""};
    for (uint32_t kind = 0; kind < 9; kind++)
        tell(!strcmp(toml_span_kind_name(kind), names[kind]), "kind", "name", kind);
    look_at_paths();
    printf("walk: %ld of %ld right\n", rows - wrong, rows);
    return wrong != 0 || documents == 0;
}
