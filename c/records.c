/* The calls that need only the records of a document. They allocate nothing, and are not proved. */
#include "paths.h"

const char *toml_span_kind_name(uint32_t kind) {
    static const char *const names[] = {"", "string", "integer", "float", "boolean", "datetime", "array", "table"};
    return kind < sizeof names / sizeof *names ? names[kind] : "";
}

toml_span_place toml_span_line_column(const char *text, size_t length, size_t offset) {
    const char *start = text, *end = text + (offset < length ? offset : length);
    toml_span_place place = {0, 0};
    for (const char *feed; (feed = (const char *)memchr(start, '\n', (size_t)(end - start))) != NULL; place.line++)
        start = feed + 1;
    place.column = (size_t)(end - start);
    return place;
}

/* Returns whether `name` is the name that a step spells. */
static int is_named(const char *name, size_t length, path_step step) {
    while (step.at < step.end) {
        char bytes[4];
        size_t count = next_bytes(&step, bytes);
        if (count == 0 || count > length || memcmp(name, bytes, count) != 0) return 0;
        name += count;
        length -= count;
    }
    return length == 0;
}

size_t toml_span_find(const toml_span_node *nodes, size_t count, const char *const sources[2], size_t from,
                      const char *path) {
    int is_pointer = *path == '/', is_first = 1;
    if (from >= count) return TOML_SPAN_NONE;
    for (; *path != 0; is_first = 0) {
        path_step step;
        path = take_step(path, is_pointer, is_first, &step);
        if (path == NULL) return TOML_SPAN_NONE;
        int is_array = nodes[from].kind == TOML_SPAN_ARRAY;
        size_t position = is_array ? position_of(step) : TOML_SPAN_NONE;
        size_t last = nodes[from].next, child = from + 1;
        for (; child < last && child < count; child = nodes[child].next) {
            const toml_span_text *key = &nodes[child].key;
            if (is_array && nodes[child].position == position) break;
            if (is_array || step.written == '[') continue;
            if (is_named(sources[key->source] + key->at, key->length, step)) break;
        }
        if (child >= last || child >= count) return TOML_SPAN_NONE;
        from = child;
    }
    return from;
}

/* While records are sorted, the fields of `sorted` hold other things. At the old index of a record, `integer` is the
 * offset at which the text first names the record, `position` is its new index, and `parent` is its new position among
 * its siblings. In the elements after the record whose children are being sorted, `children` is the offset at which a
 * child is first named, and `next` is the child's old index. This function exchanges these two fields. */
static void exchange(toml_span_node *one, toml_span_node *other) {
    size_t first = one->children, index = one->next;
    one->children = other->children;
    one->next = other->next;
    other->children = first;
    other->next = index;
}

/* Sorts children by the offsets at which they are first named. This is a heap sort, unless they are sorted already. */
static void sort_children(toml_span_node *children, size_t count) {
    size_t left = count / 2, end = count, at = 1;
    while (at < count && children[at - 1].children < children[at].children) at++;
    if (at >= count) return;
    while (end > 1) {
        if (left > 0) left--;
        else exchange(&children[0], &children[--end]);
        for (size_t top = left, child; (child = 2 * top + 1) < end; top = child) {
            if (child + 1 < end && children[child].children < children[child + 1].children) child++;
            if (children[top].children >= children[child].children) break;
            exchange(&children[top], &children[child]);
        }
    }
}

/* Finds the offset at which each record is first named. It may be before the record's key: in `a.b = 1` LF `c = 2` LF
 * `[a.d]`, the key of `a` is the one in the header, but its child `b` is named before `c`. */
static void find_first(const toml_span_node *nodes, size_t count, toml_span_node *sorted) {
    for (size_t at = 0; at < count; at++) sorted[at].integer = (int64_t)nodes[at].key_span.start;
    for (size_t at = count; --at > 0;) {
        toml_span_node *holder = &sorted[nodes[at].parent];
        int is_element = nodes[nodes[at].parent].kind == TOML_SPAN_ARRAY;
        int64_t first = sorted[at].integer;
        if (!is_element && first < holder->integer) holder->integer = first;
    }
}

/* Sets the new indices and positions of a record's children. */
static void number_children(const toml_span_node *nodes, size_t at, toml_span_node *sorted) {
    size_t held = 0, index = sorted[at].position + 1;
    TOML_SPAN_EACH(nodes, at, child) {
        held++;
        sorted[at + held].children = (size_t)sorted[child].integer;
        sorted[at + held].next = child;
    }
    if (nodes[at].kind == TOML_SPAN_TABLE) sort_children(&sorted[at + 1], held);
    for (size_t position = 0; position < held; position++) {
        size_t child = sorted[at + 1 + position].next;
        sorted[child].position = index;
        sorted[child].parent = position;
        index += nodes[child].next - child;
    }
}

void toml_span_sort(const toml_span_node *nodes, size_t count, toml_span_node *sorted) {
    if (count == 0) return;
    find_first(nodes, count, sorted);
    sorted[0].position = 0;
    sorted[0].parent = 0;
    for (size_t at = 0; at < count; at++) number_children(nodes, at, sorted);
    /* at the new index of a record: its old index, the new index of its parent, and its new position */
    for (size_t at = 0; at < count; at++) {
        toml_span_node *place = &sorted[sorted[at].position];
        place->children = at;
        place->next = at == 0 ? TOML_SPAN_NONE : sorted[nodes[at].parent].position;
        place->integer = (int64_t)sorted[at].parent;
    }
    for (size_t at = 0; at < count; at++) {
        size_t index = sorted[at].children, parent = sorted[at].next, position = (size_t)sorted[at].integer;
        sorted[at] = nodes[index];
        sorted[at].parent = parent;
        sorted[at].position = position;
        sorted[at].next = at + (nodes[index].next - index);
    }
}

/* Output whose bytes are written as far as there is room. `length` counts all of them. */
typedef struct {
    char *bytes;
    size_t room, length;
} output;

static void put(output *out, const void *bytes, size_t size) {
    if (out->length + size <= out->room) memcpy(out->bytes + out->length, bytes, size);
    else if (out->length < out->room) memcpy(out->bytes + out->length, bytes, out->room - out->length);
    out->length += size;
}

/* Writes an opcode and a number of `size` bytes, the lowest byte first. */
static void put_number(output *out, int opcode, uint64_t number, size_t size) {
    unsigned char bytes[9] = {(unsigned char)opcode};
    for (size_t at = 1; at <= size; at++, number >>= 8) bytes[at] = (unsigned char)number;
    put(out, bytes, size + 1);
}

static void put_text(output *out, const toml_span_text *text, const char *const sources[2]) {
    if (text->length < 256) put_number(out, 0x8c, text->length, 1);
    else put_number(out, 'X', text->length, 4);
    put(out, sources[text->source] + text->at, text->length);
}

static void put_integer(output *out, int64_t integer) {
    if (0 <= integer && integer < 256) put_number(out, 'K', (uint64_t)integer, 1);
    else if (INT32_MIN <= integer && integer <= INT32_MAX) put_number(out, 'J', (uint64_t)integer, 4);
    else {
        put(out, "\x8a\x08", 2);
        put_number(out, (int)(integer & 0xff), (uint64_t)(integer >> 8), 7);
    }
}

static void put_float(output *out, double number) {
    uint64_t bits, swapped = 0;
    memcpy(&bits, &number, sizeof bits);
    for (int at = 0; at < 8; at++, bits >>= 8) swapped = swapped << 8 | (bits & 0xff);
    put_number(out, 'G', swapped, 8);
}

static void put_value(output *out, const toml_span_node *nodes, size_t at, const char *const sources[2], int floats) {
    const toml_span_node *node = &nodes[at];
    switch (node->kind) {
    case TOML_SPAN_STRING: put_text(out, &node->text, sources); break;
    case TOML_SPAN_INTEGER: put_integer(out, node->integer); break;
    case TOML_SPAN_BOOLEAN: put(out, node->boolean ? "\x88" : "\x89", 1); break;
    case TOML_SPAN_ARRAY: put(out, "](", node->children ? 2 : 1); break;
    case TOML_SPAN_TABLE: put(out, "}(", node->children ? 2 : 1); break;
    default:
        if (node->kind == TOML_SPAN_FLOAT && !floats) put_float(out, node->number);
        else {
            put_integer(out, (int64_t)at);
            put(out, "Q", 1);
        }
    }
}

void toml_span_pickle(const toml_span_node *nodes, size_t from, const char *const sources[2], int floats, char *out,
                      size_t room, size_t *needed) {
    output pickle = {out, room, 11}, head = {out, room, 0};
    size_t holder = nodes[from].parent, outermost = holder, end = nodes[from].next;
    for (size_t at = from; at < end; at++) {
        if (at > from && nodes[holder].kind == TOML_SPAN_TABLE) put_text(&pickle, &nodes[at].key, sources);
        put_value(&pickle, nodes, at, sources, floats);
        if (nodes[at].children > 0) holder = at;
        /* closes each table and array that ends with this value */
        while (holder != outermost && nodes[holder].next == at + 1) {
            put(&pickle, nodes[holder].kind == TOML_SPAN_TABLE ? "u" : "e", 1);
            holder = nodes[holder].parent;
        }
    }
    put(&pickle, ".", 1);
    put(&head, "\x80\x04", 2);
    put_number(&head, 0x95, pickle.length - 11, 8);
    *needed = pickle.length;
}
