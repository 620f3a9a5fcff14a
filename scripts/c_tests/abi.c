/* Prints the layout of the records and the constants; abi.txt has the expected output. */
#include "toml_span.h"

#include <stdio.h>

#define TYPE(type) printf("%s: %zu bytes\n", #type, sizeof(type))
#define FIELD(type, field) printf("    %s at %zu, %zu bytes\n", #field, offsetof(type, field), sizeof((type *)0)->field)
#define CONSTANT(name) printf("%s = %llu\n", #name, (unsigned long long)(name))

int main(void) {
    TYPE(toml_span_range), FIELD(toml_span_range, start), FIELD(toml_span_range, end);
    TYPE(toml_span_text), FIELD(toml_span_text, source), FIELD(toml_span_text, at), FIELD(toml_span_text, length);
    TYPE(toml_span_node), FIELD(toml_span_node, kind), FIELD(toml_span_node, boolean), FIELD(toml_span_node, span);
    FIELD(toml_span_node, key_span), FIELD(toml_span_node, key), FIELD(toml_span_node, text);
    FIELD(toml_span_node, parent), FIELD(toml_span_node, position), FIELD(toml_span_node, children);
    FIELD(toml_span_node, next), FIELD(toml_span_node, integer), FIELD(toml_span_node, number);
    TYPE(toml_span_counts), FIELD(toml_span_counts, nodes), FIELD(toml_span_counts, strings);
    TYPE(toml_span_fault), FIELD(toml_span_fault, code), FIELD(toml_span_fault, has_first);
    FIELD(toml_span_fault, span), FIELD(toml_span_fault, first), FIELD(toml_span_fault, line);
    FIELD(toml_span_fault, column);
    TYPE(toml_span_place), FIELD(toml_span_place, line), FIELD(toml_span_place, column);
    TYPE(toml_span_change), FIELD(toml_span_change, change), FIELD(toml_span_change, path);
    FIELD(toml_span_change, value);
    CONSTANT(TOML_SPAN_READ), CONSTANT(TOML_SPAN_INVALID), CONSTANT(TOML_SPAN_UNREAD), CONSTANT(TOML_SPAN_UNMADE);
    CONSTANT(TOML_SPAN_MEMORY);
    CONSTANT(TOML_SPAN_STRING), CONSTANT(TOML_SPAN_INTEGER), CONSTANT(TOML_SPAN_FLOAT), CONSTANT(TOML_SPAN_BOOLEAN);
    CONSTANT(TOML_SPAN_DATETIME), CONSTANT(TOML_SPAN_ARRAY), CONSTANT(TOML_SPAN_TABLE), CONSTANT(TOML_SPAN_NONE);
    CONSTANT(TOML_SPAN_SET), CONSTANT(TOML_SPAN_REPLACE), CONSTANT(TOML_SPAN_SET_OR_ADD), CONSTANT(TOML_SPAN_RENAME);
    CONSTANT(TOML_SPAN_REMOVE), CONSTANT(TOML_SPAN_ADD), CONSTANT(TOML_SPAN_ADD_TABLE), CONSTANT(TOML_SPAN_APPEND);
    CONSTANT(TOML_SPAN_INSERT), CONSTANT(TOML_SPAN_MOVE);
    return 0;
}
