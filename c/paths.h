/* Reads the steps of a path, which is a JSON Pointer or a dotted key. The functions allocate nothing, and are not
 * proved. */
#ifndef TOML_SPAN_PATHS_H
#define TOML_SPAN_PATHS_H

#include "toml_span.h"

#include <string.h>

/* A step of a path: the bytes of a name or a position, and how they are written. `written` is '/' in a JSON Pointer. In
 * a dotted key, it is 'k' for a bare key, '"' or '\'' for a quoted key, and '[' for a position in brackets. */
typedef struct {
    const char *at, *end;
    char written;
} path_step;

/* Writes the character with this code point as UTF-8. Returns the number of its bytes, or 0 if there is no such
 * character. */
static size_t encode(unsigned long code, char bytes[4]) {
    if (code > 0x10FFFF || (code >= 0xD800 && code < 0xE000)) return 0;
    size_t length = code < 0x80 ? 1 : code < 0x800 ? 2 : code < 0x10000 ? 3 : 4;
    for (size_t at = length; at-- > 1; code >>= 6) bytes[at] = (char)(0x80 | (code & 0x3F));
    bytes[0] = (char)(length == 1 ? code : (0xF00UL >> length & 0xFF) | code);
    return length;
}

/* Reads the part of a TOML escape after its backslash, and writes the character as UTF-8. Returns the number of its
 * bytes, or 0 if the escape is not valid. */
static size_t unescape(path_step *step, char bytes[4]) {
    static const char letters[] = "btnfre\"\\", meant[] = "\b\t\n\f\r\033\"\\";
    char letter = step->at < step->end ? *step->at++ : 'u';
    const char *found = (const char *)memchr(letters, letter, sizeof letters - 1);
    int digits = letter == 'x' ? 2 : letter == 'u' ? 4 : letter == 'U' ? 8 : 0;
    unsigned long code = 0;
    if (found) bytes[0] = meant[found - letters];
    if (found || digits == 0 || step->end - step->at < digits) return found != NULL;
    for (; digits > 0; digits--, step->at++) {
        static const char hexadecimal[] = "0123456789abcdefABCDEF";
        const char *digit = (const char *)memchr(hexadecimal, *step->at, sizeof hexadecimal - 1);
        if (!digit) return 0;
        code = 16 * code + (unsigned long)(digit - hexadecimal < 16 ? digit - hexadecimal : digit - hexadecimal - 6);
    }
    return encode(code, bytes);
}

/* Reads the next byte or escape of a step, and writes the bytes of the name that it means. Returns their number, or 0
 * if the escape is not valid. */
static size_t next_bytes(path_step *step, char bytes[4]) {
    bytes[0] = *step->at++;
    if (step->written == '"' && bytes[0] == '\\') return unescape(step, bytes);
    int is_escape = step->written == '/' && bytes[0] == '~' && step->at < step->end;
    if (is_escape && (*step->at == '0' || *step->at == '1')) bytes[0] = *step->at++ == '0' ? '~' : '/';
    return 1;
}

/* Returns the position that a step spells in decimal digits without leading zeros, or TOML_SPAN_NONE for any other
 * step. */
static size_t position_of(path_step step) {
    size_t position = 0;
    if (step.written != '/' && step.written != '[') return TOML_SPAN_NONE;
    if (step.at == step.end || step.end - step.at > 18 || (*step.at == '0' && step.end - step.at > 1))
        return TOML_SPAN_NONE;
    for (; step.at < step.end; step.at++) {
        if (*step.at < '0' || *step.at > '9') return TOML_SPAN_NONE;
        position = 10 * position + (size_t)(*step.at - '0');
    }
    return position;
}

/* Returns the closing quote of the string whose opening quote is at `at`, or NULL. */
static const char *closing(const char *at) {
    char quote = *at++;
    for (; *at != quote; at++) {
        if (quote == '"' && *at == '\\' && at[1] != 0) at++;
        else if (*at == 0 || *at == '\n') return NULL;
    }
    return at;
}

/* Reads the first step of `path`, the rest of a dotted key. Before the step there must be a dot, unless `is_first` is
 * set or the step is a position in brackets. Returns the text after the step, or NULL if there is no valid step. */
static const char *dotted_step(const char *path, int is_first, path_step *step) {
    static const char blanks[] = " \t";
    static const char bare[] = "ABCDEFGHIJKLMNOPQRSTUVWXYZabcdefghijklmnopqrstuvwxyz0123456789_-";
    path += strspn(path, blanks);
    step->written = *path == '[' ? '[' : 'k';
    if (step->written != '[' && !is_first && *path++ != '.') return NULL;
    path += strspn(path, blanks);
    step->at = path;
    step->end = path + strspn(path, bare);
    if (*path == '"' || *path == '\'' || *path == '[') {
        step->written = *path;
        step->at = path + 1;
        step->end = *path == '[' ? strchr(path, ']') : closing(path);
    }
    if (step->end == NULL || (step->written == 'k' && step->at == step->end)) return NULL;
    path = step->end + (step->written != 'k');
    return path + strspn(path, blanks);
}

/* Reads the first step of `path`. Returns the text after the step, or NULL if there is no valid step. */
static const char *take_step(const char *path, int is_pointer, int is_first, path_step *step) {
    if (!is_pointer) return dotted_step(path, is_first, step);
    step->written = '/';
    step->at = path + 1;
    step->end = step->at + strcspn(step->at, "/");
    return step->end;
}

#endif
