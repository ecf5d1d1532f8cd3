// KDL 2 documents from C++17, in one header over kdl.h. It needs libkdl and the standard library.
//
//     kdl::document document("server {\n    port 8080 // the usual one\n}\n");
//     if (auto port = document.find({"server", "port"})) {
//         port->set_argument(0, 9090);
//     }
//     std::cout << document;
//
// Texts. A text is a std::string_view of UTF-8, and a result is a std::string. A document prints the
// bytes that it was parsed from. An edit changes its own piece of the text, and no other byte.
//
// Errors. A call that fails throws kdl::error, or std::bad_alloc if an allocation fails. An edit that
// throws leaves the document as it was; if an allocation fails, a layout may leave a part of it laid
// out. A value that is not of the type that the program asks for throws kdl::value_error.
//
// Ownership. A kdl::document owns its document, and frees it. It can be moved, and not copied.
//
// Nodes. A kdl::node is a place in a document: a path of indices. Each member reads or edits the
// document at that place. The document must outlive its nodes. They stay valid if it is moved, and not
// if another document is assigned to it. After a node is inserted or removed, the same path may lead
// to another node, or to none: then members throw kdl::error with KDL_NOT_FOUND. Like an iterator, a
// node of a const document can edit it.
//
// Entries and values. A kdl::entry and a kdl::value are copies: they need no document, and do not
// change after an edit.
//
// Threads. Make one call at a time on each document and its nodes, even if the call only reads, and
// even if it is const. Different documents are independent. Entries and values are ordinary objects.
#ifndef KDL_HPP
#define KDL_HPP
#include "kdl.h"

#include <algorithm>
#include <cmath>
#include <cstddef>
#include <cstdint>
#include <cstdio>
#include <cstdlib>
#include <initializer_list>
#include <iterator>
#include <limits>
#include <locale>
#include <memory>
#include <new>
#include <numeric>
#include <optional>
#include <ostream>
#include <sstream>
#include <stdexcept>
#include <string>
#include <string_view>
#include <type_traits>
#include <utility>
#include <variant>
#include <vector>

namespace kdl {

/// The indices that lead to a node: of a node in the document, of a node in that one's block, and so
/// on. They are counted from 0.
using path = std::vector<std::size_t>;

// ---- Faults and errors ----

/// A fault of a text, at the bytes start .. start + size. Its line and column are counted from 1, and
/// columns are counted in characters. A label or a help may be empty; only faults of documents have them.
struct fault {
    std::size_t start = 0, size = 0;
    std::size_t line = 1, column = 1;
    std::string message, label, help;
};

/// A call failed. what() is the text of the status, or the place and the message of the first fault,
/// as "2:6: Expected keyword".
class error : public std::runtime_error {
public:
    explicit error(std::uint32_t status, std::vector<fault> faults = {})
        : std::runtime_error(described(status, faults)), status_(status),
          faults_(std::make_shared<const std::vector<fault>>(std::move(faults))) {}

    /// The status, one of those of kdl.h: KDL_FAULTS, KDL_NOT_FOUND, ..
    std::uint32_t status() const noexcept { return status_; }
    /// The text of the status, as "not found".
    const char *status_text() const noexcept { return kdl_status_text(status_); }
    /// The faults of the given text, in the order in which they are found, if the status is KDL_FAULTS.
    /// There is at least one, but of an indent or a PATH that is refused. Their places are in that text.
    const std::vector<fault> &faults() const noexcept { return *faults_; }

private:
    static std::string described(std::uint32_t status, const std::vector<fault> &faults) {
        if (faults.empty()) {
            return kdl_status_text(status);
        }
        const fault &first = faults.front();
        return std::to_string(first.line) + ':' + std::to_string(first.column) + ": " + first.message;
    }

    std::uint32_t status_;
    std::shared_ptr<const std::vector<fault>> faults_; // copying an exception does not throw
};

/// A value is not of the type that the program asks for.
class value_error : public std::runtime_error {
    using std::runtime_error::runtime_error;
};

/// The line and the column of a byte, both counted from 1. Columns are counted in characters.
struct position {
    std::size_t line = 1, column = 1;
};

// What the rest of this header uses, and programs do not.
namespace detail {

/// The bytes of a text. Those of an empty one have an address too, as kdl.h requires.
inline const std::uint8_t *bytes(std::string_view text) noexcept {
    static const std::uint8_t none = 0;
    return text.empty() ? &none : reinterpret_cast<const std::uint8_t *>(text.data());
}

inline const std::size_t *indices(const path &of) noexcept {
    static const std::size_t none = 0;
    return of.empty() ? &none : of.data();
}

/// A buffer of at least one item, so that it has an address.
template <class T> std::vector<T> room(std::size_t size) { return std::vector<T>(size ? size : 1); }

inline std::string piece(const std::vector<std::uint8_t> &strings, std::size_t start, std::size_t size) {
    return size ? std::string(reinterpret_cast<const char *>(strings.data()) + start, size) : std::string();
}

/// Throws unless the status is KDL_OK.
inline void check(std::uint32_t status) {
    if (status == KDL_OUT_OF_MEMORY) {
        throw std::bad_alloc();
    }
    if (status != KDL_OK) {
        throw error(status);
    }
}

/// Makes a call that writes a text, with as much room as it needs.
template <class Call> std::string written(Call call) {
    std::uint8_t none = 0;
    std::size_t needed = 0;
    std::uint32_t status = call(&none, std::size_t(0), &needed);
    if (status != KDL_TOO_SMALL) {
        check(status);
        return {};
    }
    std::string out(needed, '\0');
    check(call(reinterpret_cast<std::uint8_t *>(out.data()), out.size(), &needed));
    return out;
}

/// Returns the size in bytes of the character at that byte of a text in UTF-8.
inline std::size_t character_size(std::string_view text, std::size_t at) noexcept {
    auto first = static_cast<unsigned char>(text[at]);
    std::size_t size = first < 0xC0 ? 1 : first < 0xE0 ? 2 : first < 0xF0 ? 3 : 4;
    return std::min(size, text.size() - at);
}

/// Whether a newline of KDL ends with the character of that size. The CR of a CR LF does not end it.
inline bool ends_line(std::string_view text, std::size_t at, std::size_t size) noexcept {
    std::string_view it = text.substr(at, size);
    if (it == "\r") {
        return at + 1 == text.size() || text[at + 1] != '\n';
    }
    return it == "\n" || it == "\v" || it == "\f" || it == "\xC2\x85" || it == "\xE2\x80\xA8" || it == "\xE2\x80\xA9";
}

/// Sets the lines and columns of the faults of a text, in one pass over it.
inline void set_positions(std::string_view text, std::vector<fault> &faults) {
    std::vector<std::size_t> order(faults.size());
    std::iota(order.begin(), order.end(), std::size_t(0));
    std::sort(order.begin(), order.end(),
              [&](std::size_t a, std::size_t b) { return faults[a].start < faults[b].start; });
    std::size_t at = 0;
    position here;
    for (std::size_t i : order) {
        while (at < faults[i].start && at < text.size()) {
            std::size_t size = character_size(text, at);
            if (ends_line(text, at, size)) {
                here = {here.line + 1, 1};
            } else {
                here.column++;
            }
            at += size;
        }
        faults[i].line = here.line;
        faults[i].column = here.column;
    }
}

/// Calls a function of kdl.h that lists faults as rows, with as much room as it needs. Returns the
/// faults that `made` makes of the rows and their strings.
template <class Row, class Call, class Made>
std::vector<fault> listed(std::string_view text, Call call, Made made) {
    auto rows = room<Row>(0);
    auto strings = room<std::uint8_t>(0);
    std::size_t count = 0, size = 0;
    std::vector<fault> found;
    std::uint32_t status = call(rows.data(), std::size_t(0), &count, strings.data(), std::size_t(0), &size);
    if (status == KDL_OK) {
        return found;
    }
    if (status == KDL_FAULTS) {
        rows = room<Row>(count);
        strings = room<std::uint8_t>(size);
        status = call(rows.data(), count, &count, strings.data(), size, &size);
    }
    if (status != KDL_FAULTS) {
        check(status);
    }
    found.reserve(count);
    for (std::size_t i = 0; i < count; i++) {
        found.push_back(made(rows[i], strings));
    }
    set_positions(text, found);
    return found;
}

inline std::vector<fault> faults_of(std::uint32_t kind, std::string_view text) {
    return listed<kdl_fault>(
        text,
        [&](auto... out) { return kdl_faults_of(kind, bytes(text), text.size(), out...); },
        [](const kdl_fault &row, const std::vector<std::uint8_t> &strings) {
            return fault{row.start, row.len, 1, 1, piece(strings, row.message_start, row.message_len), {}, {}};
        });
}

} // namespace detail

/// Returns the faults of a text that is read as a document, in the order in which they are found.
/// There are none if it is a document. Throws with KDL_NOT_UTF8 if the text is not UTF-8.
inline std::vector<fault> faults(std::string_view text) {
    return detail::listed<kdl_report>(
        text,
        [&](auto... out) { return kdl_reports(detail::bytes(text), text.size(), out...); },
        [](const kdl_report &row, const std::vector<std::uint8_t> &strings) {
            return fault{row.start, row.len, 1, 1, detail::piece(strings, row.message_start, row.message_len),
                         detail::piece(strings, row.label_start, row.label_len),
                         detail::piece(strings, row.help_start, row.help_len)};
        });
}

/// Returns the position of a byte of the text, or of its end. Throws with KDL_NOT_FOUND for an offset
/// after the end or inside a character.
inline position position_of(std::string_view text, std::size_t offset) {
    position found;
    detail::check(kdl_position(detail::bytes(text), text.size(), offset, &found.line, &found.column));
    return found;
}

namespace detail {

/// Throws unless the status is KDL_OK. For KDL_FAULTS, throws the faults of the text, read as `kind`
/// says.
inline void check(std::uint32_t status, std::uint32_t kind, std::string_view text) {
    if (status == KDL_FAULTS) {
        throw error(status, kind == KDL_AS_DOCUMENT ? faults(text) : faults_of(kind, text));
    }
    check(status);
}

} // namespace detail

// ---- Values ----

/// Returns a string in KDL, between quotes, with escapes for what a string cannot contain as it is.
/// Bytes that are not UTF-8 stay as they are: a call that is given them throws.
inline std::string quoted(std::string_view text) {
    std::string out = "\"";
    for (std::size_t at = 0, size = 0; at < text.size(); at += size) {
        size = detail::character_size(text, at);
        auto byte = [&](std::size_t i) { return static_cast<unsigned>(static_cast<unsigned char>(text[at + i])); };
        unsigned code = byte(0);
        for (std::size_t i = 1; i < size; i++) {
            if ((byte(i) & 0xC0U) != 0x80U) {
                size = 1; // not UTF-8
                code = byte(0);
                break;
            }
            code = (i == 1 ? code & (size == 2 ? 0x1FU : 0x0FU) : code) << 6 | (byte(i) & 0x3FU);
        }
        bool is_control = code < 0x20 || (code == 0x7F) || (size > 1 && code == 0x85);
        bool is_refused = size == 3 && (code == 0x200E || code == 0x200F || (code >= 0x2028 && code <= 0x202E) ||
                                        (code >= 0x2066 && code <= 0x2069) || code == 0xFEFF);
        if (is_control || is_refused) {
            char escape[16];
            std::snprintf(escape, sizeof escape, "\\u{%x}", code);
            out += code == '\n' ? "\\n" : code == '\t' ? "\\t" : code == '\r' ? "\\r" : escape;
        } else {
            if (code == '"' || code == '\\') {
                out += '\\';
            }
            out += text.substr(at, size);
        }
    }
    return out += '"';
}

namespace detail {

/// Returns the double that is nearest to a number in decimal, of any length. The locale does not matter.
inline double parsed(const std::string &text) {
    using limits = std::numeric_limits<double>;
    if (text == "#nan") {
        return limits::quiet_NaN();
    }
    if (text == "#inf" || text == "#-inf") {
        return text == "#inf" ? limits::infinity() : -limits::infinity();
    }
    std::istringstream in(text);
    in.imbue(std::locale::classic());
    double number = 0;
    in >> number;
    bool is_too_large = in.fail() && std::abs(number) >= limits::max();
    return is_too_large ? std::copysign(limits::infinity(), number) : number;
}

/// Returns a float in KDL, in few digits that read back as the same float. The locale does not matter.
template <class T> std::string spelled(T number) {
    if (std::isnan(number)) {
        return "#nan";
    }
    if (std::isinf(number)) {
        return number > 0 ? "#inf" : "#-inf";
    }
    char out[64];
    for (int digits = std::numeric_limits<T>::digits10; digits <= std::numeric_limits<T>::max_digits10; digits++) {
        std::snprintf(out, sizeof out, "%.*g", digits, static_cast<double>(number));
        if (static_cast<T>(std::strtod(out, nullptr)) == number) {
            break;
        }
    }
    std::string text;
    bool is_integer = true;
    for (const char *at = out; *at != '\0'; at++) {
        if ((*at >= '0' && *at <= '9') || *at == '-' || *at == '+' || *at == 'e') {
            is_integer = is_integer && *at != 'e';
            text += *at;
        } else if (text.back() != '.') { // the point of the locale, of one byte or more
            is_integer = false;
            text += '.';
        }
    }
    return is_integer ? text + ".0" : text;
}

template <class T>
inline constexpr bool is_character = std::is_same_v<T, char> || std::is_same_v<T, wchar_t> ||
                                     std::is_same_v<T, char16_t> || std::is_same_v<T, char32_t>;
template <class T>
inline constexpr bool is_integer =
    std::is_integral_v<T> && !std::is_same_v<T, bool> && !is_character<T> && sizeof(T) <= 8;
template <class T>
inline constexpr bool is_text = std::is_convertible_v<const T &, std::string_view> && !std::is_same_v<T, std::nullptr_t>;
template <class> inline constexpr bool is_none = false;

} // namespace detail

/// An integer of more than 64 bits, in decimal.
struct large_integer {
    std::string text;
    /// The double that is nearest to it.
    double as_double() const { return detail::parsed(text); }
    friend bool operator==(const large_integer &a, const large_integer &b) noexcept { return a.text == b.text; }
    friend bool operator!=(const large_integer &a, const large_integer &b) noexcept { return !(a == b); }
};

/// A float as it is spelled, without '_': 1.5e3, #inf, #-inf, #nan. Two are equal if their texts are.
struct float_text {
    std::string text;
    /// The double that is nearest to it; an infinity if it is too large for a double.
    double as_double() const { return detail::parsed(text); }
    friend bool operator==(const float_text &a, const float_text &b) noexcept { return a.text == b.text; }
    friend bool operator!=(const float_text &a, const float_text &b) noexcept { return !(a == b); }
};

/// A value of KDL: null, a boolean, an integer, a float or a string. It converts from the types of
/// C++: nullptr, bool, integers of up to 64 bits, float, double and strings.
class value {
public:
    using variant = std::variant<std::nullptr_t, bool, std::int64_t, large_integer, float_text, std::string>;

    value(std::nullptr_t = nullptr) {}
    value(large_integer number) : data_(std::move(number)) {}
    value(float_text number) : data_(std::move(number)) {}
    value(std::string text) : data_(std::move(text)) {}
    template <class T, std::enable_if_t<std::is_same_v<T, bool>, int> = 0> value(T is) : data_(is) {}
    template <class T, std::enable_if_t<detail::is_integer<T>, int> = 0>
    value(T number) : data_(of_integer(number)) {}
    template <class T, std::enable_if_t<std::is_same_v<T, float> || std::is_same_v<T, double>, int> = 0>
    value(T number) : data_(float_text{detail::spelled(number)}) {}
    template <class T, std::enable_if_t<detail::is_text<T>, int> = 0>
    value(const T &text) : data_(std::string(std::string_view(text))) {}

    bool is_null() const noexcept { return is<std::nullptr_t>(); }
    bool is_number() const noexcept { return is<std::int64_t>() || is<large_integer>() || is<float_text>(); }
    /// Whether it holds that type of `variant`: is<bool>(), is<std::int64_t>(), is<std::string>(), ..
    template <class T> bool is() const noexcept { return std::holds_alternative<T>(data_); }
    /// The value for std::visit and std::get_if.
    const variant &data() const noexcept { return data_; }

    /// The value as a T, if it is one. T is a type of `variant`, an integer of another size, float or
    /// double. An integer is there if it is in the range of T. A double is there for each number, and is
    /// the nearest one; a float is the nearest one to that double.
    template <class T> std::optional<T> try_as() const {
        if constexpr (std::is_floating_point_v<T>) {
            return as_floating<T>();
        } else if constexpr (detail::is_integer<T>) {
            return as_integer<T>();
        } else if constexpr (std::is_constructible_v<variant, std::in_place_type_t<T>, T>) {
            const T *found = std::get_if<T>(&data_);
            return found ? std::optional<T>(*found) : std::nullopt;
        } else {
            static_assert(detail::is_none<T>, "a value of KDL has no such type");
        }
    }

    /// The value as a T, as try_as. Throws value_error if it is none.
    template <class T> T as() const {
        std::optional<T> found = try_as<T>();
        if (!found) {
            throw value_error("the value " + to_kdl() + " is not of the type that the program asks for");
        }
        return *std::move(found);
    }

    /// The value in KDL: #true, 8080, "a \"b\"". Strings are always between quotes.
    std::string to_kdl() const {
        struct spelling {
            std::string operator()(std::nullptr_t) const { return "#null"; }
            std::string operator()(bool is) const { return is ? "#true" : "#false"; }
            std::string operator()(std::int64_t number) const { return std::to_string(number); }
            std::string operator()(const large_integer &number) const { return number.text; }
            std::string operator()(const float_text &number) const { return number.text; }
            std::string operator()(const std::string &text) const { return quoted(text); }
        };
        return std::visit(spelling(), data_);
    }

    friend bool operator==(const value &a, const value &b) noexcept { return a.data_ == b.data_; }
    friend bool operator!=(const value &a, const value &b) noexcept { return !(a == b); }

private:
    template <class T> static variant of_integer(T number) {
        if (std::is_unsigned_v<T> && static_cast<std::uint64_t>(number) > static_cast<std::uint64_t>(INT64_MAX)) {
            return large_integer{std::to_string(number)};
        }
        return static_cast<std::int64_t>(number);
    }

    template <class T> std::optional<T> as_floating() const {
        if (auto number = std::get_if<std::int64_t>(&data_)) {
            return static_cast<T>(*number);
        }
        if (auto number = std::get_if<large_integer>(&data_)) {
            return static_cast<T>(number->as_double());
        }
        auto number = std::get_if<float_text>(&data_);
        return number ? std::optional<T>(static_cast<T>(number->as_double())) : std::nullopt;
    }

    template <class T> std::optional<T> as_integer() const {
        using limits = std::numeric_limits<T>;
        if (auto number = std::get_if<std::int64_t>(&data_)) {
            bool is_less = std::is_unsigned_v<T> ? *number < 0 : *number < static_cast<std::int64_t>(limits::min());
            bool is_in = !is_less && (*number < 0 || static_cast<std::uint64_t>(*number) <=
                                                         static_cast<std::uint64_t>(limits::max()));
            return is_in ? std::optional<T>(static_cast<T>(*number)) : std::nullopt;
        }
        auto large = std::get_if<large_integer>(&data_);
        if (!large || std::is_signed_v<T> || sizeof(T) < 8) {
            return std::nullopt;
        }
        std::uint64_t number = 0;
        for (char digit : large->text) { // a negative one begins with a '-'
            unsigned unit = static_cast<unsigned>(digit - '0');
            if (unit > 9 || number > (UINT64_MAX - unit) / 10) {
                return std::nullopt;
            }
            number = number * 10 + unit;
        }
        return static_cast<T>(number);
    }

    variant data_;
};

// ---- Entries and nodes ----

namespace detail {

/// A row of kdl.h, and the strings of that row.
struct row {
    kdl_row of{};
    std::vector<std::uint8_t> strings;

    std::string name() const { return piece(strings, of.name_start, of.name_len); }
    std::optional<std::string> type() const {
        return of.has_type ? std::optional(piece(strings, of.type_start, of.type_len)) : std::nullopt;
    }
    kdl::value value() const {
        switch (of.value) {
        case KDL_STRING: return piece(strings, of.text_start, of.text_len);
        case KDL_INTEGER: return of.integer;
        case KDL_LARGE_INTEGER: return large_integer{piece(strings, of.text_start, of.text_len)};
        case KDL_FLOAT: return float_text{piece(strings, of.text_start, of.text_len)};
        case KDL_BOOL: return of.integer != 0;
        default: return nullptr;
        }
    }
};

/// Makes a call that writes a row. Returns none if the status is KDL_NOT_FOUND.
template <class Call> std::optional<row> found_row(Call call) {
    std::optional<row> out(std::in_place);
    std::size_t needed = 0;
    out->strings.resize(64);
    std::uint32_t status = call(&out->of, out->strings.data(), out->strings.size(), &needed);
    if (status == KDL_TOO_SMALL) {
        out->strings.resize(needed);
        status = call(&out->of, out->strings.data(), out->strings.size(), &needed);
    }
    if (status == KDL_NOT_FOUND) {
        return std::nullopt;
    }
    check(status);
    return out;
}

/// Returns what is there. Throws with KDL_NOT_FOUND if nothing is.
template <class T> T there(std::optional<T> found) {
    if (!found) {
        throw error(KDL_NOT_FOUND);
    }
    return *std::move(found);
}

inline std::optional<row> entry_row(kdl_document *in, const path &of, std::size_t index) {
    return found_row([&](auto... out) { return kdl_entry(in, indices(of), of.size(), index, out...); });
}

/// Nodes or entries, which a loop reads one after another. They are counted when the range is made: do
/// not insert or remove any while a loop is over them. The other edits are allowed. The range is valid
/// as long as the document.
template <class Item> class range {
public:
    class iterator {
    public:
        using iterator_category = std::input_iterator_tag;
        using value_type = Item;
        using difference_type = std::ptrdiff_t;
        using pointer = void;
        using reference = Item;

        Item operator*() const { return Item(of_.in_, of_.at_, index_); }
        iterator &operator++() noexcept {
            index_++;
            return *this;
        }
        iterator operator++(int) {
            iterator old = *this;
            ++*this;
            return old;
        }
        friend bool operator==(const iterator &a, const iterator &b) noexcept { return a.index_ == b.index_; }
        friend bool operator!=(const iterator &a, const iterator &b) noexcept { return a.index_ != b.index_; }

    private:
        friend class range;
        iterator(range of, std::size_t index) : of_(std::move(of)), index_(index) {}
        range of_;
        std::size_t index_;
    };

    range(kdl_document *in, path at, std::size_t size) : in_(in), at_(std::move(at)), size_(size) {}

    iterator begin() const { return iterator(*this, 0); }
    iterator end() const { return iterator(*this, size_); }
    std::size_t size() const noexcept { return size_; }
    bool empty() const noexcept { return size_ == 0; }
    /// The item of that index. Throws with KDL_NOT_FOUND if there is none.
    Item operator[](std::size_t index) const {
        if (index >= size_) {
            throw error(KDL_NOT_FOUND);
        }
        return Item(in_, at_, index);
    }

private:
    kdl_document *in_;
    path at_; // of the node that has them; empty for the document
    std::size_t size_;
};

inline std::optional<path> found_path(kdl_document *in, path from, std::initializer_list<std::string_view> names) {
    for (std::string_view name : names) {
        std::size_t index = 0;
        std::uint32_t status = kdl_find(in, indices(from), from.size(), bytes(name), name.size(), &index);
        if (status == KDL_NOT_FOUND) {
            return std::nullopt;
        }
        check(status);
        from.push_back(index);
    }
    return from;
}

/// Counts the nodes of the document or of the parent's block. Returns 0 if there is no block.
inline std::size_t node_count(kdl_document *in, const path &parent) {
    std::size_t count = 0;
    std::uint32_t status = kdl_node_count(in, indices(parent), parent.size(), &count);
    if (status != KDL_NOT_FOUND) {
        check(status);
    }
    return count;
}

inline void insert_node(kdl_document *in, const path &parent, std::size_t index, std::string_view text) {
    check(kdl_insert_node(in, indices(parent), parent.size(), index, bytes(text), text.size()), KDL_AS_NODE, text);
}

} // namespace detail

/// An argument or a property of a node, as it was when it was read.
class entry {
public:
    /// Its index in the node: arguments and properties are counted together, from 0.
    std::size_t index() const noexcept { return index_; }
    bool is_argument() const noexcept { return !key_; }
    bool is_property() const noexcept { return key_.has_value(); }
    /// The key of a property; none of an argument.
    const std::optional<std::string> &key() const noexcept { return key_; }
    const std::optional<std::string> &type() const noexcept { return type_; }
    const kdl::value &value() const noexcept { return value_; }
    /// The bytes start() .. start() + size() are its place in the text that the document was parsed
    /// from, or in the text that was inserted. Edits do not change it.
    std::size_t start() const noexcept { return start_; }
    std::size_t size() const noexcept { return size_; }

private:
    friend class detail::range<entry>::iterator;
    friend class detail::range<entry>;
    entry(kdl_document *in, const path &node, std::size_t index)
        : entry(detail::there(detail::entry_row(in, node, index)), index) {}
    entry(const detail::row &row, std::size_t index)
        : index_(index), start_(row.of.start), size_(row.of.len), type_(row.type()), value_(row.value()) {
        if (row.of.kind == KDL_PROPERTY) {
            key_ = row.name();
        }
    }

    std::size_t index_, start_, size_;
    std::optional<std::string> key_, type_;
    kdl::value value_;
};

/// The arguments and properties of a node, in order.
using entries = detail::range<entry>;

/// A node of a document: the document, and the path of the node. Each member but path() throws with
/// KDL_NOT_FOUND if the path leads to no node.
class node {
public:
    using nodes = detail::range<node>;

    /// The indices that lead to it, as kdl.h takes them.
    const kdl::path &path() const noexcept { return path_; }

    // ---- Reading ----

    std::string name() const { return row().name(); }
    std::optional<std::string> type() const { return row().type(); }
    /// Whether it has a block, which may be empty.
    bool has_block() const { return row().of.has_block != 0; }
    /// The bytes start() .. start() + size() are its place in the text that the document was parsed
    /// from, or in the text that was inserted. Edits do not change it.
    std::size_t start() const { return row().of.start; }
    std::size_t size() const { return row().of.len; }

    kdl::entries entries() const { return {in_, path_, entry_count()}; }
    /// The nodes in its block; none if there is no block.
    nodes children() const {
        std::size_t count = detail::node_count(in_, path_);
        if (count == 0) {
            row();
        }
        return {in_, path_, count};
    }
    /// The argument of that number, if there is one. Arguments alone are counted, from 0.
    std::optional<value> argument(std::size_t number) const {
        auto found = detail::found_row([&](auto... out) {
            return kdl_argument(in_, detail::indices(path_), path_.size(), number, out...);
        });
        if (!found) {
            row();
            return std::nullopt;
        }
        return found->value();
    }
    /// The last property of that key, the one that counts in KDL, if there is one.
    std::optional<value> property(std::string_view key) const {
        std::optional<std::size_t> index = property_index(key);
        return index ? std::optional(detail::there(detail::entry_row(in_, path_, *index)).value()) : std::nullopt;
    }
    /// The node that the names lead to, from this node's block: at each step the first node of that
    /// name. Returns none if there is no such node.
    std::optional<node> find(std::initializer_list<std::string_view> names) const {
        row();
        std::optional<kdl::path> found = detail::found_path(in_, path_, names);
        return found ? std::optional(node(in_, *std::move(found))) : std::nullopt;
    }

    // ---- Edits of entries ----

    /// Sets the value of the entry at the index, from a text in KDL: "\"a b\"", "0x10", "#true". The
    /// text is its spelling too. Throws with the faults if the text is not one value.
    void set_value(std::size_t index, std::string_view text) {
        detail::check(
            kdl_set_value(in_, detail::indices(path_), path_.size(), index, detail::bytes(text), text.size()),
            KDL_AS_VALUE, text);
    }
    /// Sets the argument of that number. Arguments alone are counted. If the number is that of the
    /// arguments, adds one at the end; throws with KDL_NOT_FOUND for a greater number.
    void set_argument(std::size_t number, const value &to) {
        std::size_t count = entry_count(), seen = 0;
        for (std::size_t i = 0; i < count; i++) {
            if (kind_of(i) == KDL_ARGUMENT && seen++ == number) {
                return set_value(i, to.to_kdl());
            }
        }
        if (seen != number) {
            throw error(KDL_NOT_FOUND);
        }
        insert_entry(count, to.to_kdl());
    }
    /// Sets the last property of that key, or adds one at the end if there is none.
    void set_property(std::string_view key, const value &to) {
        if (std::optional<std::size_t> index = property_index(key)) {
            set_value(*index, to.to_kdl());
        } else {
            insert_entry(entry_count(), quoted(key) + '=' + to.to_kdl());
        }
    }
    /// Removes all properties of that key. Returns how many there were. If an allocation fails, some of
    /// them may be removed.
    std::size_t remove_property(std::string_view key) {
        std::size_t count = 0;
        for (; std::optional<std::size_t> index = property_index(key); count++) {
            remove_entry(*index);
        }
        return count;
    }
    /// Sets the key of the entry at the index. Without a key, makes it an argument.
    void set_key(std::size_t index, std::optional<std::string_view> key) {
        std::string_view text = key.value_or("");
        detail::check(kdl_set_key(in_, detail::indices(path_), path_.size(), index, key.has_value(),
                                  detail::bytes(text), text.size()));
    }
    /// Sets the type of the entry at the index, or removes it.
    void set_type(std::size_t index, std::optional<std::string_view> type) {
        if (index == SIZE_MAX) {
            throw error(KDL_NOT_FOUND);
        }
        put_type(index, type);
    }
    /// Inserts an entry, given in KDL as "8080" or "port=(u16)8080", before the one at the index, or as
    /// the last if the index is the number of entries. It is printed in the library's spelling.
    void insert_entry(std::size_t index, std::string_view text) {
        detail::check(
            kdl_insert_entry(in_, detail::indices(path_), path_.size(), index, detail::bytes(text), text.size()),
            KDL_AS_ENTRY, text);
    }
    /// Removes the entry at the index, with the spaces and comments before it.
    void remove_entry(std::size_t index) {
        detail::check(kdl_remove_entry(in_, detail::indices(path_), path_.size(), index));
    }

    // ---- Edits of nodes ----

    /// Sets the name. The name is the string itself, and not a text in KDL.
    void set_name(std::string_view name) {
        detail::check(kdl_set_name(in_, detail::indices(path_), path_.size(), detail::bytes(name), name.size()));
    }
    /// Sets the type of the node, or removes it. The type is the string itself.
    void set_type(std::optional<std::string_view> type) { put_type(SIZE_MAX, type); }
    /// Inserts a node, given in KDL, into the block: before the node at the index, or as the last if the
    /// index is the number of nodes. The text is inserted as it is: "    port 8080\n". Makes a block if
    /// there is none. kdl_insert_node of kdl.h says where the lines break. Returns the new node.
    node insert_node(std::size_t index, std::string_view text) {
        node made(in_, path_, index); // first, since it may throw
        detail::insert_node(in_, path_, index, text);
        return made;
    }
    /// Inserts a node, given in KDL, as the last of the block, as insert_node does.
    node add_node(std::string_view text) { return insert_node(detail::node_count(in_, path_), text); }
    /// Removes the node from the document, with what is before it back to the node before. After that,
    /// its path leads to the node that was after it, or to none.
    void remove() {
        detail::check(kdl_remove_node(in_, detail::indices(path_), path_.size() - 1, path_.back()));
    }

private:
    friend class document;
    friend class detail::range<node>::iterator;
    friend class detail::range<node>;
    node(kdl_document *in, kdl::path path) : in_(in), path_(std::move(path)) {}
    node(kdl_document *in, const kdl::path &parent, std::size_t index) : in_(in) {
        path_.reserve(parent.size() + 1);
        path_ = parent;
        path_.push_back(index);
    }

    detail::row row() const {
        return detail::there(detail::found_row([&](auto... out) {
            std::size_t count = 0;
            return kdl_node(in_, detail::indices(path_), path_.size(), &count, out...);
        }));
    }
    /// The status of a call that writes a row, which is set even if its strings have no room.
    static void check_row(std::uint32_t status) {
        if (status != KDL_TOO_SMALL) {
            detail::check(status);
        }
    }
    std::size_t entry_count() const {
        std::size_t count = 0, needed = 0;
        kdl_row row{};
        std::uint8_t none = 0;
        check_row(kdl_node(in_, detail::indices(path_), path_.size(), &count, &row, &none, 0, &needed));
        return count;
    }
    std::uint32_t kind_of(std::size_t index) const {
        std::size_t needed = 0;
        kdl_row row{};
        std::uint8_t none = 0;
        check_row(kdl_entry(in_, detail::indices(path_), path_.size(), index, &row, &none, 0, &needed));
        return row.kind;
    }
    std::optional<std::size_t> property_index(std::string_view key) const {
        std::size_t index = 0;
        std::uint32_t status = kdl_find_entry(in_, detail::indices(path_), path_.size(), detail::bytes(key),
                                              key.size(), &index);
        if (status == KDL_NOT_FOUND) {
            entry_count();
            return std::nullopt;
        }
        detail::check(status);
        return index;
    }
    void put_type(std::size_t index, std::optional<std::string_view> type) {
        std::string_view text = type.value_or("");
        detail::check(kdl_set_type(in_, detail::indices(path_), path_.size(), index, type.has_value(),
                                   detail::bytes(text), text.size()));
    }

    kdl_document *in_;
    kdl::path path_;
};

/// The nodes of a document or of a block, in order.
using nodes = node::nodes;

// ---- Documents ----

/// How document::format lays a document out. Without a change, it is as document::format() does, but
/// comments inside a type, after it and around `=` stay, and a document or a block without nodes gets no
/// newline in their place.
struct layout {
    /// The greatest number of empty lines that are kept between two nodes or comments.
    std::size_t blank_lines = 0;
    /// Removes comments and slashdashed pieces.
    bool no_comments = false;
    /// Values, names, keys and types keep their spellings, as 0x10 and "a" for 16 and a.
    bool keep_spelling = false;
    /// A block that is on one line stays on one line.
    bool keep_one_line = false;
    /// The indent of each level: spaces and tabs.
    std::string indent = "    ";
};

/// A document of KDL 2, which keeps its text. A document that was moved from has nothing: its members
/// throw with KDL_NO_DOCUMENT.
class document {
public:
    /// A document without nodes, as of an empty text.
    document() : document(std::string_view()) {}
    /// Parses a text. Throws with all faults if the text has any, with their lines and columns, and
    /// with KDL_NOT_UTF8 if it is not UTF-8.
    explicit document(std::string_view text) : in_(new kdl_document{}) {
        detail::check(kdl_parse(detail::bytes(text), text.size(), in_.get()), KDL_AS_DOCUMENT, text);
    }

    /// The text of the document. If it was only parsed, that is the text that was read.
    std::string to_string() const {
        return detail::written([&](auto... out) { return kdl_print(in(), out...); });
    }

    // ---- Reading ----

    kdl::nodes nodes() const { return {in(), {}, detail::node_count(in(), {})}; }
    /// The node at the path. Throws with KDL_NOT_FOUND if the path leads to none.
    node at(path to) const {
        node found(in(), std::move(to));
        found.row();
        return found;
    }
    /// The node that the names lead to, from the top: at each step the first node of that name. Returns
    /// none if there is no such node, or no name.
    std::optional<node> find(std::initializer_list<std::string_view> names) const {
        std::optional<path> found = detail::found_path(in(), {}, names);
        return found && !found->empty() ? std::optional(node(in(), *std::move(found))) : std::nullopt;
    }
    /// The nodes that a query selects, as "server > port[val() >= 1024]", in the order of the document.
    /// Throws with the fault if the text is not a query.
    std::vector<node> query(std::string_view text) const {
        std::vector<std::size_t> flat(64);
        std::size_t count = 0, needed = 0;
        auto call = [&] {
            return kdl_query(in(), detail::bytes(text), text.size(), flat.data(), flat.size(), &count, &needed);
        };
        std::uint32_t status = call();
        if (status == KDL_TOO_SMALL) {
            flat.resize(needed);
            status = call();
        }
        detail::check(status, KDL_AS_QUERY, text);
        std::vector<node> found;
        found.reserve(count);
        for (auto at = flat.cbegin(), end = at + static_cast<std::ptrdiff_t>(needed); at != end;) {
            auto last = at + 1 + static_cast<std::ptrdiff_t>(*at);
            found.push_back(node(in(), path(at + 1, last)));
            at = last;
        }
        return found;
    }

    /// The node that a PATH leads to, as "server[1]/port"; kdl.h describes PATHs. Returns none if there is
    /// no such node. Throws with KDL_FAULTS if the text is not a PATH.
    std::optional<node> find_path(std::string_view place) const {
        path found(8);
        std::size_t needed = 0;
        auto call = [&] {
            return kdl_find_path(in(), detail::bytes(place), place.size(), found.data(), found.size(), &needed);
        };
        std::uint32_t status = call();
        if (status == KDL_TOO_SMALL) {
            found.resize(needed);
            status = call();
        }
        if (status == KDL_NOT_FOUND) {
            return std::nullopt;
        }
        detail::check(status);
        found.resize(needed);
        return node(in(), std::move(found));
    }
    /// The value that a PATH names: "server/port", "server/port#1", "server/@host". Returns none if there
    /// is no such entry. Throws with KDL_FAULTS if the text is not a PATH.
    std::optional<value> get(std::string_view place) const {
        auto found = detail::found_row(
            [&](auto... out) { return kdl_get_path(in(), detail::bytes(place), place.size(), out...); });
        return found ? std::optional(found->value()) : std::nullopt;
    }

    // ---- Edits ----

    /// Inserts a node, given in KDL, before the node at the index, and before the comments in front of
    /// that one; or as the last if the index is the number of nodes. The text is inserted as it is, and
    /// newlines are added if they are needed. Returns the new node.
    node insert_node(std::size_t index, std::string_view text) {
        node made(in(), {}, index); // first, since it may throw
        detail::insert_node(in(), {}, index, text);
        return made;
    }
    /// Inserts a node, given in KDL, as the last of the document, as insert_node does.
    node add_node(std::string_view text) { return insert_node(detail::node_count(in(), {}), text); }

    /// Lays the document out, with its comments and without empty lines. Its data do not change.
    void format() { detail::check(kdl_format(in())); }
    /// Lays the document out. Throws with KDL_FAULTS if the indent has another character than the
    /// spaces of KDL.
    void format(const layout &how) {
        struct kdl_layout_options to {};
        to.blank_lines = how.blank_lines;
        to.no_comments = how.no_comments;
        to.keep_spelling = how.keep_spelling;
        to.keep_one_line = how.keep_one_line;
        detail::check(kdl_layout(in(), &to, detail::bytes(how.indent), how.indent.size()));
    }
    /// Lays the document out, without its comments. Two documents then have the same text if and only
    /// if they have the same data.
    void strip() { detail::check(kdl_strip(in())); }

private:
    struct freed {
        void operator()(kdl_document *of) const noexcept {
            kdl_free(of);
            delete of;
        }
    };
    kdl_document *in() const {
        if (!in_) {
            throw error(KDL_NO_DOCUMENT);
        }
        return in_.get();
    }

    std::unique_ptr<kdl_document, freed> in_; // it stays where it is if the document is moved
};

/// Writes the text of the document.
inline std::ostream &operator<<(std::ostream &out, const document &of) { return out << of.to_string(); }

/// Returns the text that document::format() makes of a text. Throws with the faults if it has any.
inline std::string format_text(std::string_view text) {
    document of(text);
    of.format();
    return of.to_string();
}

} // namespace kdl
#endif
