/* toml_span for C++17: a document and views of its values.
 *
 *     toml_span::document document(text); // the text must outlive the document, and the document its values
 *     if (!document) std::cerr << document.report("settings.toml");
 *     for (toml_span::value package : document["package"])
 *         if (auto name = package["name"].as_string()) std::cout << *name << '\n';
 *
 * A missing value converts to false, and so does anything that is looked up in it, so look-ups can be chained. `edit`
 * and `format` return a new text:
 *
 *     std::string why;
 *     auto edited = toml_span::edit(text, {{TOML_SPAN_SET, "server.port", "8080"}}, &why);
 *     if (!edited) std::cerr << why << '\n';
 *
 * A look-up by name, by position or of a place takes time logarithmic in the size of the document; `find` looks at each
 * name on its way. Nothing throws, except that std::vector and std::string may if memory runs out. Offsets, lines and
 * columns are those of toml_span.h: in bytes, counted from 0. */
#ifndef TOML_SPAN_HPP
#define TOML_SPAN_HPP

#include "toml_span.h"

#include <algorithm>
#include <cstring>
#include <iterator>
#include <optional>
#include <string>
#include <string_view>
#include <utility>
#include <vector>

namespace toml_span {

namespace detail {

/* Returns the text that a call writes. If it does not fit into `room` bytes, the call is made again. */
template <typename Write> std::string written(size_t room, Write write) {
    std::string out(room, '\0');
    size_t needed = 0;
    write(out.data(), room, &needed);
    if (needed > room) {
        out.resize(room = needed);
        write(out.data(), room, &needed);
    }
    out.resize(needed);
    return out;
}

/* Returns the new text that a call makes from `text`. If it makes none, returns nothing, and sets `why` to the reason,
 * unless `why` is null. */
template <typename Write>
std::optional<std::string> made(std::string_view text, std::string *why, Write write) {
    const char *from = text.data() ? text.data() : "";
    uint32_t status = TOML_SPAN_UNREAD;
    std::string made = written(2 * text.size() + 512, [&](char *out, size_t room, size_t *needed) {
        status = write(from, out, room, needed);
    });
    if (status == TOML_SPAN_READ) return made;
    if (status == TOML_SPAN_MEMORY) made = "out of memory";
    if (status == TOML_SPAN_INVALID || status == TOML_SPAN_UNREAD)
        made = written(512, [&](char *out, size_t room, size_t *needed) {
            toml_span_message(from, text.size(), out, room, needed);
        });
    if (why) *why = std::move(made);
    return std::nullopt;
}

} // namespace detail

/* Makes changes, one after the other, and leaves all other bytes as they are. Returns the new text. If there is none,
 * for example because a change is refused, returns nothing, and sets `why` to the reason, unless `why` is null. The
 * reason for refusing one of several changes begins with its number, counted from 1: `edit 2: `. */
inline std::optional<std::string> edit(std::string_view text, const std::vector<toml_span_change> &changes,
                                       std::string *why = nullptr) {
    toml_span_change none = {0, nullptr, nullptr};
    uint32_t status = TOML_SPAN_READ;
    size_t refused = 0;
    auto edited = detail::made(text, why, [&](const char *from, char *out, size_t room, size_t *needed) {
        toml_span_fault fault;
        return status = toml_span_edit(from, text.size(), changes.empty() ? &none : changes.data(), changes.size(), out,
                                       room, needed, &refused, &fault);
    });
    if (why && status == TOML_SPAN_UNMADE && changes.size() > 1)
        *why = "edit " + std::to_string(refused + 1) + ": " + *why;
    return edited;
}

/* Formats a text, as toml_span_format does. Returns the new text. If there is none, for example because the text is not
 * valid, returns nothing, and sets `why` to the reason, unless `why` is null. */
inline std::optional<std::string> format(std::string_view text, size_t width = 80, size_t indent = 4,
                                         std::string *why = nullptr) {
    return detail::made(text, why, [&](const char *from, char *out, size_t room, size_t *needed) {
        toml_span_fault fault;
        return toml_span_format(from, text.size(), width, indent, out, room, needed, &fault);
    });
}

class value;

/* A text and, if it is valid TOML, its records in the order of the text. */
class document {
public:
    explicit document(std::string_view text) : sources_{text.data() ? text.data() : "", nullptr}, length_(text.size()) {
        std::vector<toml_span_node> nodes(length_ / 12 + 16);
        toml_span_counts counts = {0, 0};
        strings_.resize(length_ + 1);
        sources_[1] = strings_.data();
        for (;;) {
            status_ = toml_span_parse(sources_[0], length_, nodes.data(), nodes.size(), strings_.data(), length_,
                                      &counts, &fault_);
            if (counts.nodes <= nodes.size()) break;
            nodes.resize(counts.nodes);
        }
        nodes.resize(counts.nodes);
        make_index(nodes);
    }
    document(const document &) = delete;
    document &operator=(const document &) = delete;

    explicit operator bool() const { return status_ == TOML_SPAN_READ; }
    uint32_t status() const { return status_; }
    const toml_span_fault &fault() const { return fault_; }
    const std::vector<toml_span_node> &nodes() const { return nodes_; }
    const char *const *sources() const { return sources_; }
    std::string_view text(const toml_span_text &part) const { return {sources_[part.source] + part.at, part.length}; }
    toml_span_place place(size_t offset) const {
        if (lines_.empty()) return toml_span_line_column(sources_[0], length_, offset);
        size_t line = size_t(std::upper_bound(lines_.begin(), lines_.end(), offset) - lines_.begin()) - 1;
        return {line, std::min(offset, length_) - lines_[line]};
    }

    /* If the text is not valid: the name of the fault's kind, the headline of its report, and the report with source
     * lines. If it is not UTF-8 or too long, the code is empty. */
    std::string code() const {
        return detail::written(512, [this](char *out, size_t room, size_t *needed) {
            toml_span_code(fault_.code, out, room, needed);
        });
    }
    std::string message() const {
        return detail::written(512, [this](char *out, size_t room, size_t *needed) {
            toml_span_message(sources_[0], length_, out, room, needed);
        });
    }
    std::string report(std::string_view name) const {
        return detail::written(512, [this, name](char *out, size_t room, size_t *needed) {
            toml_span_report(sources_[0], length_, name.data() ? name.data() : "", name.size(), out, room, needed);
        });
    }

    inline value root() const;
    inline value operator[](std::string_view name) const;
    inline value find(const char *pointer) const; /* by a path, as toml_span_find does */

private:
    friend class value;

    /* Sorts the records, and makes the index. Before that, the entries of a table are in the order of their names. */
    void make_index(std::vector<toml_span_node> &nodes) {
        size_t count = nodes.size(), length = 0;
        nodes_.resize(count);
        /* (the fields `boolean` take the old positions along) */
        for (size_t at = 0; at < count; at++) nodes[at].boolean |= uint32_t(at << 1);
        toml_span_sort(nodes.data(), count, nodes_.data());
        std::vector<uint32_t> moved(count);
        for (size_t at = 0; at < count; at++) {
            moved[nodes_[at].boolean >> 1] = uint32_t(at);
            nodes_[at].boolean &= 1;
        }
        first_.resize(count);
        children_.resize(count);
        for (size_t at = 0; at < count; at++) {
            first_[moved[at]] = uint32_t(length);
            TOML_SPAN_EACH(nodes, at, child) children_[length++] = moved[child];
        }
        const char *text = sources_[0], *end = text + length_;
        for (const char *line = count ? text : nullptr; line;) {
            lines_.push_back(uint32_t(line - text));
            line = static_cast<const char *>(std::memchr(line, '\n', size_t(end - line)));
            if (line) line++;
        }
    }

    const char *sources_[2];
    size_t length_;
    uint32_t status_ = TOML_SPAN_UNREAD;
    toml_span_fault fault_ = {};
    std::string strings_;
    std::vector<toml_span_node> nodes_;
    std::vector<uint32_t> first_;    /* where the children of each record begin in `children_` */
    std::vector<uint32_t> children_; /* the entries of a table in the order of their names, the elements of an array */
    std::vector<uint32_t> lines_;    /* where each line begins */
};

/* A value of a document, or a missing one. */
class value {
public:
    class iterator {
    public:
        using iterator_category = std::input_iterator_tag;
        using value_type = value;
        using difference_type = std::ptrdiff_t;
        using pointer = const value *;
        using reference = value;

        iterator(const document *of, size_t index) : of_(of), index_(index) {}
        value operator*() const { return {of_, index_}; }
        iterator &operator++() { return index_ = of_->nodes()[index_].next, *this; }
        iterator operator++(int) { return std::exchange(*this, iterator(of_, of_->nodes()[index_].next)); }
        bool operator==(const iterator &other) const { return index_ == other.index_; }
        bool operator!=(const iterator &other) const { return index_ != other.index_; }

    private:
        const document *of_;
        size_t index_;
    };

    value(const document *of, size_t index)
        : of_(of), index_(index < of->nodes().size() ? index : TOML_SPAN_NONE) {}

    explicit operator bool() const { return index_ != TOML_SPAN_NONE; }
    const toml_span_node &node() const { return *this ? of_->nodes()[index_] : none(); }
    uint32_t kind() const { return node().kind; } /* TOML_SPAN_STRING and so on; 0 if it is missing */
    std::string_view kind_name() const { return toml_span_kind_name(kind()); }
    toml_span_range span() const { return node().span; }
    toml_span_range key_span() const { return node().key_span; }
    std::string_view key() const { return of_->text(node().key); }
    toml_span_place place() const { return of_->place(node().span.start); }
    value parent() const { return {of_, node().parent}; }

    std::optional<std::string_view> as_string() const { return as_text(TOML_SPAN_STRING); }
    std::optional<std::string_view> as_datetime() const { return as_text(TOML_SPAN_DATETIME); }
    std::optional<int64_t> as_integer() const { return as(TOML_SPAN_INTEGER, node().integer); }
    std::optional<double> as_float() const { return as(TOML_SPAN_FLOAT, node().number); }
    std::optional<bool> as_boolean() const { return as(TOML_SPAN_BOOLEAN, node().boolean == 1); }

    /* The entries of a table or the elements of an array, in the order of the text. */
    size_t size() const { return node().children; }
    iterator begin() const { return {of_, *this ? index_ + 1 : 0}; }
    iterator end() const { return {of_, *this ? node().next : 0}; }
    value operator[](std::string_view name) const {
        if (kind() != TOML_SPAN_TABLE) return {of_, TOML_SPAN_NONE};
        const uint32_t *first = children(), *last = first + size();
        first = std::lower_bound(first, last, name, [this](size_t index, std::string_view wanted) {
            return value(of_, index).key() < wanted;
        });
        return {of_, first < last && value(of_, *first).key() == name ? *first : TOML_SPAN_NONE};
    }
    value operator[](size_t position) const {
        bool is_element = kind() == TOML_SPAN_ARRAY && position < size();
        return {of_, is_element ? children()[position] : TOML_SPAN_NONE};
    }
    value find(const char *path) const {
        return {of_, toml_span_find(of_->nodes().data(), of_->nodes().size(), of_->sources(), index_, path)};
    }

private:
    const uint32_t *children() const { return of_->children_.data() + of_->first_[index_]; }
    static const toml_span_node &none() {
        static const toml_span_node node = {0, 0, {0, 0}, {0, 0}, {0, 0, 0}, {0, 0, 0}, TOML_SPAN_NONE, 0, 0, 0, 0, 0};
        return node;
    }
    template <typename T> std::optional<T> as(uint32_t wanted, T found) const {
        return kind() == wanted ? std::optional<T>(found) : std::nullopt;
    }
    std::optional<std::string_view> as_text(uint32_t wanted) const { return as(wanted, of_->text(node().text)); }

    const document *of_;
    size_t index_;
};

inline value document::root() const { return {this, 0}; }
inline value document::operator[](std::string_view name) const { return root()[name]; }
inline value document::find(const char *pointer) const { return root().find(pointer); }

} // namespace toml_span

#endif
