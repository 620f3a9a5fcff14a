// Look-ups of the header for C++, against the records of each FILE, and reports: prints each failed check.
#include <fstream>
#include <iostream>
#include <iterator>
#include <string>
#include <toml_span.hpp>

static int wrong;

static void tell(bool is_right, std::string_view what, std::string_view found = "") {
    if (is_right) return;
    wrong++;
    std::cout << "wrong: " << what << (found.empty() ? "" : ": ") << found << '\n';
}

/* Whether each value is found in its parent, nothing else is, and its place is that of the library for C. */
static void look(const char *name, std::string_view text) {
    toml_span::document document(text);
    tell(bool(document), name);
    for (size_t at = 0; at < document.nodes().size(); at++) {
        toml_span::value value(&document, at), parent = value.parent();
        const toml_span_node &node = value.node();
        toml_span::value found = parent.kind() == TOML_SPAN_TABLE ? parent[value.key()] : parent[node.position];
        tell(at == 0 ? !parent : &found.node() == &node && node.boolean <= 1, name, value.key());
        if (at < 1000 || at % 1000 == 0) {
            toml_span_place place = toml_span_line_column(text.data(), text.size(), node.span.start);
            tell(value.place().line == place.line && value.place().column == place.column, name, "place");
        }
        std::string other = std::string(value.key()) + '\1';
        tell(!parent[other] && !parent[node.position + parent.size()] && !value[other], name, other);
    }
}

/* Whether the report and the message of a text that is not valid are these. If the name of the file is not UTF-8, it is
 * `?` in the report. */
static void tell_report(std::string_view text, std::string_view message, std::string report) {
    toml_span::document document(text);
    tell(!document && document.message() == message, message, document.message());
    tell(document.report("a.toml") == report, report, document.report("a.toml"));
    report.replace(report.find("a.toml"), 6, "?");
    tell(document.report("caf\xe9.toml") == report, report, document.report("caf\xe9.toml"));
    tell(document.place(3).column == toml_span_line_column(text.data(), text.size(), 3).column, "place");
}

int main(int argc, char **argv) {
    std::string large = "list = [";
    for (int at = 1; at < argc; at++) {
        std::ifstream file(argv[at]);
        std::string text((std::istreambuf_iterator<char>(file)), std::istreambuf_iterator<char>());
        if (toml_span::document(text)) look(argv[at], text);
    }
    for (int at = 0; at < 40000; at++) large += std::to_string(at) + ", ";
    large += "]\n";
    for (int at = 0; at < 40000; at++) large += "k" + std::to_string(at) + " = 1\n";
    look("large", large);
    look("empty", "");
    look("line ends", "a = 1\r\n\n[b]\nc = [\n1,\n{ d = 'x' }]\n");
    tell_report("a = 1 2", "expected the end of the line",
                "error[wanted]: expected the end of the line\n --> a.toml:1:7\n  |\n1 | a = 1 2\n"
                "  |       ^ only a comment can follow here\n");
    tell_report("\xef\xbb\xbf# l\xc3\xa4uft\n\tname = \"caf\xe9\"\n",
                "the file is not valid UTF-8: byte 0xE9 at offset 24",
                "error[not-utf-8]: the file is not valid UTF-8: byte 0xE9 at offset 24\n --> a.toml:2:13\n  |\n"
                "2 |     name = \"caf\n  |                ^\n  |\n  = help: this looks like Latin-1 (ISO-8859-1)\n"
                "  = help: convert it with `iconv -f ISO-8859-1 -t UTF-8`\n");
    tell_report("\xff\xfe" "a", "the file is not valid UTF-8: byte 0xFF at offset 0",
                "error[not-utf-8]: the file is not valid UTF-8: byte 0xFF at offset 0\n --> a.toml:1:1\n  |\n1 |\n"
                "  | ^\n  |\n  = help: this looks like UTF-16 (byte order mark FF FE)\n"
                "  = help: convert it with `iconv -f UTF-16 -t UTF-8`\n");
    tell_report("\n\n\n\n\n\n\n\n\n\xc3\xa4 \x93", "the file is not valid UTF-8: byte 0x93 at offset 12",
                "error[not-utf-8]: the file is not valid UTF-8: byte 0x93 at offset 12\n  --> a.toml:10:3\n   |\n"
                "   = help: this looks like Windows-1252\n"
                "   = help: convert it with `iconv -f WINDOWS-1252 -t UTF-8`\n");
    std::string name(700, 'k');
    tell(toml_span::document(name + " = 1\n" + name + " = 2").message() == "duplicate key: `" + name + "`", "long");
    tell_report(std::string(TOML_SPAN_LONGEST + 1, '#'), "the file is larger than 16 MiB",
                "error[too-long]: the file is larger than 16 MiB\n --> a.toml\n");
    return wrong;
}
