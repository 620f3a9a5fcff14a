/* Sets a value of a TOML file, formats it, and prints the new text: edit FILE PATH VALUE */
#include <stdio.h>
#include <stdlib.h>
#include <toml_span.h>

static char text[TOML_SPAN_LONGEST + 1], edited[2 * TOML_SPAN_LONGEST], formatted[2 * TOML_SPAN_LONGEST];

int main(int argc, char **argv) {
    FILE *file = argc == 4 ? fopen(argv[1], "rb") : NULL;
    if (!file) return fputs("usage: edit FILE PATH VALUE\n", stderr), 2;
    size_t length = fread(text, 1, sizeof text, file), needed = 0, refused = 0;
    fclose(file);

    toml_span_change changes[] = {
        {TOML_SPAN_SET_OR_ADD, argv[2], argv[3]},
        {TOML_SPAN_SET_OR_ADD, "edited.times", "1"},
    };
    toml_span_fault fault;
    uint32_t status = toml_span_edit(text, length, changes, 2, edited, sizeof edited, &needed, &refused, &fault);
    if (status == TOML_SPAN_UNMADE)
        fprintf(stderr, "%s: %.*s\n", changes[refused].path, (int)needed, edited);
    if (status == TOML_SPAN_INVALID)
        fprintf(stderr, "%s:%zu:%zu: not valid TOML\n", argv[1], fault.line + 1, fault.column + 1);
    if (status != TOML_SPAN_READ || needed > sizeof edited) return (int)status + 10;

    status = toml_span_format(edited, needed, 80, 4, formatted, sizeof formatted, &needed, &fault);
    if (status != TOML_SPAN_READ || needed > sizeof formatted) return (int)status + 20;
    fwrite(formatted, 1, needed, stdout);
    return 0;
}
