/* Prints each key of a TOML file with its line and column, both counted from 1, in the order of the file. */
#include <stdio.h>
#include <stdlib.h>
#include <string.h>
#include <toml_span.h>

int main(int argc, char **argv) {
    FILE *file = argc == 2 ? fopen(argv[1], "rb") : NULL;
    char *text = (char *)malloc(TOML_SPAN_LONGEST + 1); /* a file with more bytes is refused, not cut off */
    if (!file || !text) return fputs("usage: keys FILE\n", stderr), 2;
    size_t length = fread(text, 1, TOML_SPAN_LONGEST + 1, file);
    fclose(file);

    /* the first call counts, the second one fills */
    toml_span_counts counts = {0, 0};
    toml_span_fault fault;
    toml_span_node no_node;
    char no_byte;
    uint32_t status = toml_span_parse(text, length, &no_node, 0, &no_byte, 0, &counts, &fault);
    if (status == TOML_SPAN_INVALID) {
        char report[8192];
        size_t needed = 0;
        toml_span_report(text, length, argv[1], strlen(argv[1]), report, sizeof report, &needed);
        fwrite(report, 1, needed < sizeof report ? needed : sizeof report, stderr);
    }
    if (status != TOML_SPAN_READ) return (int)status;
    toml_span_node *nodes = (toml_span_node *)malloc(counts.nodes * sizeof *nodes);
    toml_span_node *sorted = (toml_span_node *)malloc(counts.nodes * sizeof *sorted);
    char *strings = (char *)malloc(counts.strings + 1);
    if (!nodes || !sorted || !strings) return TOML_SPAN_MEMORY;
    status = toml_span_parse(text, length, nodes, counts.nodes, strings, counts.strings, &counts, &fault);
    if (status != TOML_SPAN_READ) return (int)status;

    toml_span_sort(nodes, counts.nodes, sorted);
    const char *sources[] = {text, strings};
    for (size_t at = 1; at < counts.nodes; at++) {
        const toml_span_node *node = &sorted[at];
        if (sorted[node->parent].kind != TOML_SPAN_TABLE) continue;
        toml_span_place place = toml_span_line_column(text, length, node->key_span.start);
        printf("%zu:%zu: %.*s: %s\n", place.line + 1, place.column + 1, (int)node->key.length,
               sources[node->key.source] + node->key.at, toml_span_kind_name(node->kind));
    }
    size_t port = toml_span_find(sorted, counts.nodes, sources, 0, "/server/ports/0");
    if (port != TOML_SPAN_NONE) printf("the first port is %lld\n", (long long)sorted[port].integer);
    free(nodes), free(sorted), free(strings), free(text);
    return 0;
}
