// Prints the line, column, path and kind of each value of a TOML file.
#include <fstream>
#include <iostream>
#include <iterator>
#include <string>
#include <toml_span.hpp>

static void print(const std::string &path, toml_span::value value) {
    bool is_array = value.kind() == TOML_SPAN_ARRAY;
    for (toml_span::value held : value) {
        std::string name = path + '/' + (is_array ? std::to_string(held.node().position) : std::string(held.key()));
        toml_span_place place = held.place();
        std::cout << place.line + 1 << ':' << place.column + 1 << ": " << name << ": " << held.kind_name();
        if (auto text = held.as_string()) std::cout << " \"" << *text << '"';
        std::cout << '\n';
        print(name, held);
    }
}

int main(int argc, char **argv) {
    std::ifstream file(argc == 2 ? argv[1] : "");
    if (!file) return std::cerr << "usage: values FILE\n", 2;
    std::string text((std::istreambuf_iterator<char>(file)), std::istreambuf_iterator<char>());
    toml_span::document document(text);
    if (!document) return std::cerr << document.report(argv[1]), 1;
    print("", document.root());
    if (auto port = document["server"]["ports"][0].as_integer()) std::cout << "the first port is " << *port << '\n';
}
