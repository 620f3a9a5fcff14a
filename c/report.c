/* toml_span_message and toml_span_report. If a text is UTF-8, both take their words from the proved report. Otherwise
 * this file writes what the program `toml-span` prints. */
#include "toml_span.h"

#include <string.h>

/* The calls of crates/toml_span_c/src/texts.rt, which scripts/c_library.sh renames: they write nothing for a text that
 * is not UTF-8 or too long. */
#ifdef __cplusplus
extern "C"
#endif
uint32_t toml_span_report_proved(const char *text, size_t length, const char *name, size_t name_length, char *out,
                                 size_t room, size_t *needed);

/* Output whose bytes are written as far as there is room. `length` counts all of them. */
typedef struct {
    char *bytes;
    size_t room, length;
} output;

static void put(output *out, const char *bytes, size_t size) {
    size_t fits = out->length < out->room ? out->room - out->length : 0;
    memcpy(out->bytes + (fits ? out->length : 0), bytes, size < fits ? size : fits);
    out->length += size;
}

static void put_words(output *out, const char *words) { put(out, words, strlen(words)); }

static void put_times(output *out, size_t times, const char *words) {
    while (times-- > 0) put_words(out, words);
}

/* Writes a name, with pictures for control characters. */
static void put_name(output *out, const char *name, size_t length) {
    for (size_t at = 0; at < length; at++) {
        unsigned char byte = (unsigned char)name[at];
        char picture[] = {'\xe2', '\x90', (char)(byte == 127 ? 0xa1 : 0x80 + byte)};
        if (byte < 32 || byte == 127) put(out, picture, 3);
        else put(out, name + at, 1);
    }
}

/* Writes a number to `base` 10 or 16. */
static void put_number(output *out, size_t number, size_t base) {
    char digits[20], *at = digits + sizeof digits;
    do *--at = "0123456789ABCDEF"[number % base];
    while ((number /= base) > 0);
    put(out, at, (size_t)(digits + sizeof digits - at));
}

/* Returns the length of the character at `at`, or 0 if the bytes there are not UTF-8. */
static size_t character(const unsigned char *at, size_t length) {
    unsigned char low = 0x80, high = 0xbf;
    size_t size = *at < 0x80 ? 1 : *at < 0xc2 ? 0 : *at < 0xe0 ? 2 : *at < 0xf0 ? 3 : *at < 0xf5 ? 4 : 0;
    if (*at == 0xe0) low = 0xa0;
    if (*at == 0xed) high = 0x9f;
    if (*at == 0xf0) low = 0x90;
    if (*at == 0xf4) high = 0x8f;
    if (size > length || (size > 1 && (at[1] < low || at[1] > high))) return 0;
    for (size_t next = 2; next < size; next++)
        if (at[next] < 0x80 || at[next] > 0xbf) return 0;
    return size;
}

/* Writes the line before the byte at `end`, and a mark below the byte. Leaves the line out if it is long, or has other
 * characters than those of ASCII and tabs, since a character may take two columns or none. */
static void put_line(output *out, const char *start, const char *end, size_t margin, size_t line) {
    size_t columns = 0;
    for (const char *at = start; at < end; at++) {
        if (*at != '\t' && (*at < ' ' || *at > '~')) return;
        columns += *at == '\t' ? 4 : 1;
    }
    if (columns > 60) return;
    put_times(out, margin, " ");
    put_words(out, " |\n");
    put_number(out, line, 10);
    put_words(out, start < end ? " | " : " |");
    for (const char *at = start; at < end; at++) put(out, *at == '\t' ? "    " : at, *at == '\t' ? 4 : 1);
    put_words(out, "\n");
    put_times(out, margin, " ");
    put_words(out, " | ");
    put_times(out, columns, " ");
    put_words(out, "^\n");
}

/* Writes the place of the byte at `at`, which is not UTF-8, its line, and which encoding the text seems to have. */
static void put_place(output *out, const char *text, size_t at, size_t length) {
    const unsigned char *bytes = (const unsigned char *)text;
    /* (a byte order mark has no column) */
    size_t line = 1, column = 1, margin = 1, mark = at > 2 && memcmp(text, "\xef\xbb\xbf", 3) == 0 ? 3 : 0;
    const char *start = text + mark, *encoding = "ISO-8859-1", *look = "this looks like Latin-1 (ISO-8859-1)";
    if (bytes[at] < 0xa0) encoding = "WINDOWS-1252", look = "this looks like Windows-1252";
    if (length > 1 && bytes[0] + bytes[1] == 0xff + 0xfe && (bytes[0] == 0xff || bytes[0] == 0xfe)) {
        look = "this looks like UTF-16 (byte order mark FF FE)";
        if (bytes[0] == 0xfe) look = "this looks like UTF-16 (byte order mark FE FF)";
        encoding = "UTF-16";
    }
    for (size_t before = mark; before < at; before++) {
        column += (bytes[before] & 0xc0) != 0x80;
        if (bytes[before] == '\n') start = text + before + 1, column = 1, line++;
    }
    for (size_t digits = line; digits > 9; digits /= 10) margin++;
    put_words(out, ":");
    put_number(out, line, 10);
    put_words(out, ":");
    put_number(out, column, 10);
    put_words(out, "\n");
    put_line(out, start, text + at, margin, line);
    put_times(out, margin, " ");
    put_words(out, " |\n");
    put_times(out, margin, " ");
    put_words(out, " = help: ");
    put_words(out, look);
    put_words(out, "\n");
    put_times(out, margin, " ");
    put_words(out, " = help: convert it with `iconv -f ");
    put_words(out, encoding);
    put_words(out, " -t UTF-8`\n");
}

/* Writes the report of a text that is too long or not UTF-8. */
static void put_unread(output *out, const char *text, size_t length, const char *name, size_t name_length) {
    size_t at = 0, line = 0;
    if (length <= TOML_SPAN_LONGEST)
        for (size_t size; at < length && (size = character((const unsigned char *)text + at, length - at)) > 0;)
            at += size;
    if (length > TOML_SPAN_LONGEST) put_words(out, "error[too-long]: the file is larger than 16 MiB\n");
    else {
        put_words(out, "error[not-utf-8]: the file is not valid UTF-8: byte 0x");
        put_number(out, (unsigned char)text[at] / 16, 16);
        put_number(out, (unsigned char)text[at] % 16, 16);
        put_words(out, " at offset ");
        put_number(out, at, 10);
        put_words(out, "\n");
        line = 1 + toml_span_line_column(text, length, at).line;
    }
    for (; line > 9; line /= 10) put_words(out, " ");
    put_words(out, " --> ");
    put_name(out, name, name_length);
    if (length <= TOML_SPAN_LONGEST) put_place(out, text, at, length);
    else put_words(out, "\n");
}

/* Returns whether all bytes are UTF-8. */
static int is_utf8(const char *bytes, size_t length) {
    for (size_t at = 0, size; at < length; at += size)
        if ((size = character((const unsigned char *)bytes + at, length - at)) == 0) return 0;
    return 1;
}

uint32_t toml_span_report(const char *text, size_t length, const char *name, size_t name_length, char *out, size_t room,
                          size_t *needed) {
    if (!is_utf8(name, name_length)) name = "?", name_length = 1;
    uint32_t status = toml_span_report_proved(text, length, name, name_length, out, room, needed);
    if (status == TOML_SPAN_UNREAD) {
        output report = {out, room, 0};
        put_unread(&report, text, length, name, name_length);
        *needed = report.length;
    }
    return status;
}

/* The headline is the first line of the report, after `error[code]: `. If it does not fit into `room` bytes together
 * with that, more room is asked for than it needs. */
uint32_t toml_span_message(const char *text, size_t length, char *out, size_t room, size_t *needed) {
    uint32_t status = toml_span_report(text, length, "", 0, out, room, needed);
    if (status != TOML_SPAN_INVALID && status != TOML_SPAN_UNREAD) return status;
    size_t written = *needed < room ? *needed : room;
    const char *colon = (const char *)memchr(out, ':', written), *end = (const char *)memchr(out, '\n', written);
    if (colon == NULL || end == NULL) return status;
    *needed = (size_t)(end - colon) - 2;
    memmove(out, colon + 2, *needed);
    return status;
}
