// The wrappers `edit` and `format` of the header for C++: prints each failed check.
#include <iostream>
#include <toml_span.hpp>

static int wrong;

static void tell(const std::optional<std::string> &found, const std::string &why, std::string_view wanted) {
    if ((found ? *found : "!" + why) == wanted) return;
    wrong++;
    std::cout << "wanted: " << wanted << "\nfound: " << (found ? *found : why) << '\n';
}

int main() {
    std::string why, text = "[server]\nport = 80 # open\n", large(3000, 'x'), value = "'" + large + "'";
    auto set = [&](std::string_view of, const char *path, const char *to) {
        return toml_span::edit(of, {{TOML_SPAN_SET, path, to}}, &why);
    };
    tell(set(text, "server.port", "8080"), why, "[server]\nport = 8080 # open\n");
    tell(set(text, "server.port", value.c_str()), why, "[server]\nport = " + value + " # open\n");
    tell(set(text, "server.host", "8080"), why, "!there is nothing at this path");
    tell(toml_span::edit(text, {{TOML_SPAN_SET, "server.port", "1"}, {TOML_SPAN_SET, "server.host", "1"}}, &why), why,
         "!edit 2: there is nothing at this path");
    tell(set("a = 1\na = 2", "a", "1"), why, "!duplicate key: `a`");
    tell(set("\xff", "a", "1"), why, "!the file is not valid UTF-8: byte 0xFF at offset 0");
    tell(set(std::string(TOML_SPAN_LONGEST + 1, '#'), "a", "1"), why, "!the file is larger than 16 MiB");
    tell(set("a = True", "a", "1"), why, "!booleans are lowercase");
    tell(toml_span::edit(text, {{TOML_SPAN_ADD, "server.on", "true"}, {TOML_SPAN_REMOVE, "/server/port", nullptr}}),
         why, "[server]\non = true\n");
    tell(toml_span::edit(std::string_view(), {}), why, "");
    if (toml_span::edit(text, {{TOML_SPAN_SET, "none", "1"}})) wrong++;
    tell(toml_span::format("a=[1,2]"), why, "a = [1, 2]\n");
    tell(toml_span::format("a=[1,2]", 5, 2), why, "a = [\n  1,\n  2,\n]\n");
    tell(toml_span::format("=", 80, 4, &why), why, "!this value has no key");
    tell(toml_span::format(std::string_view()), why, "");
    return wrong;
}
