/* fuzz COUNT FILE..: texts that are changed at random, in arrays between pages that may not be touched.
 *
 * Each text is some lines of the documents, with some bytes overwritten, left out or doubled. The arrays have random
 * lengths, and each begins or ends at such a page. The records of a text that is read with enough room must be
 * consistent: see `hangs`. One text of eight is edited or formatted, too: see `is_rewritten`. The seed is fixed. */
#define _DEFAULT_SOURCE
#include "toml_span.h"

#include <stdio.h>
#include <stdlib.h>
#include <string.h>
#include <sys/mman.h>
#include <unistd.h>

enum { LONGEST = 400, ROOM = 512 };

static unsigned long seed = 88172645463325252ul;

static size_t pick(size_t below) {
    seed ^= seed << 13;
    seed ^= seed >> 7;
    seed ^= seed << 17;
    return below ? seed % below : 0;
}

/* Bytes between two pages that may not be touched. */
typedef struct {
    char *start;
    size_t size;
} guarded;

static guarded guard(size_t size) {
    size_t page = (size_t)sysconf(_SC_PAGESIZE), pages = (size + page - 1) / page * page;
    char *all = mmap(NULL, pages + 2 * page, PROT_READ | PROT_WRITE, MAP_PRIVATE | MAP_ANONYMOUS, -1, 0);
    if (all == MAP_FAILED || mprotect(all, page, PROT_NONE) || mprotect(all + page + pages, page, PROT_NONE)) exit(2);
    return (guarded){all + page, pages};
}

/* Returns this many of these bytes, at the front or at the end. */
static char *part(guarded block, size_t size) { return pick(2) ? block.start : block.start + block.size - size; }

static char documents[1 << 20];
static size_t total;

static size_t change(char *text) {
    static const char bytes[] = "=[]{}\"\"''\\#.,\n\n\t a1-_+:Tzeu\xc3\xa9\xff";
    size_t from = pick(total - LONGEST), length = pick(pick(4) ? 80 : LONGEST - 16) + 1;
    while (from > 0 && documents[from - 1] != '\n') from--;
    while (length < LONGEST - 16 && documents[from + length - 1] != '\n') length++;
    memcpy(text, documents + from, length);
    for (size_t times = pick(3); times > 0 && length > 1; times--) {
        size_t at = pick(length);
        switch (pick(3)) {
        case 0:
            text[at] = bytes[pick(sizeof bytes - 1)];
            break;
        case 1:
            memmove(text + at, text + at + 1, --length - at);
            break;
        default:
            memmove(text + at + 1, text + at, length++ - at);
        }
    }
    return length;
}

/* Returns whether the records are consistent: numbers, places, texts and bounds. */
static int hangs(const toml_span_node *nodes, toml_span_counts counts, size_t length) {
    if (nodes[0].parent != TOML_SPAN_NONE || nodes[0].kind != TOML_SPAN_TABLE) return 0;
    if (nodes[0].next != counts.nodes) return 0;
    size_t aside = 0;
    for (size_t at = 0; at < counts.nodes; at++) {
        const toml_span_node *node = &nodes[at];
        size_t children = 0, child = at + 1;
        for (; child < node->next && child < counts.nodes; child = nodes[child].next) {
            if (nodes[child].parent != at || nodes[child].position != children++) return 0;
            if (nodes[child].next <= child) return 0;
        }
        if (child != node->next || children != node->children || node->kind < 1 || node->kind > 7) return 0;
        if (node->span.start > node->span.end || node->span.end > length || node->key_span.end > length) return 0;
        const toml_span_text *texts[] = {&node->key, &node->text};
        for (size_t which = 0; which < 2; which++) {
            if (texts[which]->source > 1) return 0;
            if (texts[which]->source == 1) {
                if (texts[which]->at != aside) return 0;
                aside += texts[which]->length;
            } else if (texts[which]->at + texts[which]->length > length) return 0;
        }
    }
    return aside == counts.strings && counts.strings <= length && counts.nodes <= length / 2 + 1 + length % 2;
}

/* Returns whether random changes, or the formatter, return the status that a parse of this text has, or a change fails,
 * and whether the result is a document. */
static int is_rewritten(const char *text, size_t length, guarded block, uint32_t status) {
    static const char *const paths[] = {"",      "a",     "/a/0",      "a[1]",  "b.c",
                                        "/a/b",  "x.y.z", "\"a b\"",   "/a~1b", "arr[0].b"};
    static const char *const values[] = {"1", "[1, 2]", "{a = 1}", "\"x\"", "'''\n'''",
                                         "a", "x.y",    "",        "07:32", "[\n#\n]"};
    toml_span_change changes[3];
    for (size_t at = 0; at < 3; at++) {
        toml_span_change change = {(uint32_t)pick(11), paths[pick(10)], values[pick(10)]};
        changes[at] = change;
    }
    size_t room = pick(3) ? ROOM : pick(ROOM), needed = 0, refused = 99, count = pick(4);
    char *out = part(block, room);
    toml_span_fault fault = {0};
    int is_edit = pick(2) == 0;
    uint32_t now = is_edit ? toml_span_edit(text, length, changes, count, out, room, &needed, &refused, &fault)
                           : toml_span_format(text, length, pick(90), pick(9), out, room, &needed, &fault);
    if (now == TOML_SPAN_UNMADE) return is_edit && status == TOML_SPAN_READ && refused < count && needed > 0;
    if (now != status || (now == TOML_SPAN_INVALID) != (fault.code > 0)) return 0;
    return now != TOML_SPAN_READ || needed > room || toml_span_check(out, needed) == TOML_SPAN_READ;
}

/* Returns whether a range is in a text of UTF-8, and begins and ends between characters. */
static int is_whole(const char *text, size_t length, toml_span_range range) {
    return range.start <= range.end && range.end <= length &&
           (range.start == length || (text[range.start] & 0xC0) != 0x80) &&
           (range.end == length || (text[range.end] & 0xC0) != 0x80);
}

int main(int argc, char **argv) {
    if (argc < 3) return 2;
    long count = atol(argv[1]), read = 0, refused = 0, other = 0, wrong = 0;
    for (int at = 2; at < argc; at++) {
        FILE *file = fopen(argv[at], "rb");
        if (!file) return 2;
        total += fread(documents + total, 1, sizeof documents - total, file);
        fclose(file);
    }
    if (total < LONGEST) return 2;
    guarded texts = guard(LONGEST), records = guard(ROOM * sizeof(toml_span_node)), bytes = guard(LONGEST);
    guarded news = guard(ROOM);
    static char text[LONGEST];
    for (long at = 0; at < count; at++) {
        size_t length = change(text), room = pick(3) ? ROOM : pick(20), strings_room = pick(3) ? LONGEST : pick(9);
        char *shown = part(texts, length);
        memcpy(shown, text, length);
        toml_span_node *nodes = (toml_span_node *)(void *)part(records, room * sizeof(toml_span_node));
        toml_span_counts counts = {0, 0};
        toml_span_fault fault = {0};
        uint32_t status = toml_span_parse(shown, length, nodes, room, part(bytes, strings_room), strings_room, &counts,
                                          &fault);
        if (status == TOML_SPAN_READ) {
            read++;
            if (counts.nodes <= room && !hangs(nodes, counts, length)) wrong++;
        } else if (status == TOML_SPAN_INVALID) {
            refused++;
            if (fault.code < 1 || fault.code > 17 || !is_whole(shown, length, fault.span)) wrong++;
            if (!is_whole(shown, length, fault.first)) wrong++;
        } else if (status == TOML_SPAN_UNREAD) {
            other++;
        } else wrong++;
        if (pick(8) == 0 && !is_rewritten(shown, length, news, status)) wrong++;
    }
    printf("fuzz: %ld texts: %ld are read, %ld refused, %ld no UTF-8; %ld wrong\n", count, read, refused, other, wrong);
    return wrong != 0 || read == 0 || refused == 0;
}
