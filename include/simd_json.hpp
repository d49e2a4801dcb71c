/* simd_json.hpp: simd_json.h for C++17, in a header. The parser that it calls is proved; the
 * wrapper is only tested.
 *
 *     simd_json::parser parser;
 *     simd_json::element root = parser.parse(R"({"the_answer": 42, "sizes": [1, 2]})");
 *     std::cout << root["the_answer"].as<int>() << ' ' << root.value_or("port", 8080) << '\n';
 *     for (simd_json::element size : root["sizes"].array())
 *         std::cout << size.as<double>() << '\n';
 */
#ifndef SIMD_JSON_HPP
#define SIMD_JSON_HPP

#if __cplusplus < 201703L || !defined(__cpp_exceptions)
#error "simd_json.hpp needs C++17 and exceptions: use -std=c++17, and not -fno-exceptions"
#endif

#include <simd_json.h>

#include <algorithm>
#include <cstddef>
#include <cstdint>
#include <cstring>
#include <exception>
#include <functional>
#include <initializer_list>
#include <iterator>
#include <map>
#include <memory>
#include <new>
#include <optional>
#include <ostream>
#if __cplusplus >= 202002L && __has_include(<ranges>)
#include <ranges>
#endif
#include <stdexcept>
#include <string>
#include <string_view>
#include <type_traits>
#include <utility>
#include <vector>

namespace simd_json {

/* The first error of an input: its status, as SIMD_JSON_INVALID_NUMBER, its index in bytes, and the
 * byte there (simd_json_place). */
class error : public std::exception {
public:
    error(int32_t status, const simd_json_place &place) : status_(status), place_(place) {
        what_ = simd_json_status_text(status);
        what_ += " at character " + std::to_string(place.index);
    }

    /* The same with its line, column and reason: `text` is the input as it was before the parse. */
    error(int32_t status, const simd_json_place &place, std::string_view text)
        : error(status, place) {
        char words[SIMD_JSON_REASON_MAX];
        size_t len = 0;
        const int32_t located = simd_json_location(text.data(), text.size(), 1, status, &place,
                                                   &position_, words, sizeof words, &len);
        if (located != SIMD_JSON_OK)
            position_ = {};
        reason_.assign(words, len);
        if (len == 0)
            return;
        what_.replace(0, what_.find(' '), simd_json_status_text(position_.status));
        what_ += ", line " + std::to_string(position_.line);
        what_ += " column " + std::to_string(position_.column) + ": " + reason_;
    }

    const char *what() const noexcept override { return what_.c_str(); }
    int32_t status() const noexcept { return status_; }
    size_t index() const noexcept { return place_.index; }
    std::optional<uint32_t> character() const noexcept {
        if (place_.character == SIMD_JSON_NO_CHARACTER)
            return std::nullopt;
        return place_.character;
    }

    /* The place for people, also of an error of the whole input, whose index is 0, and of more text
     * after the document, at its first byte: the byte, the line and the column in characters, both
     * from 1, and the reason, as "expected a value, found `]`". Zeros if the text was not given,
     * which is the reason then, or an allocation failed. */
    size_t byte() const noexcept { return position_.byte; }
    size_t line() const noexcept { return position_.line; }
    size_t column() const noexcept { return position_.column; }
    const std::string &reason() const noexcept { return reason_; }

private:
    int32_t status_;
    simd_json_place place_;
    simd_json_position position_{};
    std::string reason_ = "parse(), which takes a copy, has line, column and reason", what_;
};

/* Throws std::invalid_argument unless a text is a JSON Pointer (RFC 6901, section 3). */
inline void require_pointer(std::string_view text) {
    if (!simd_json_is_pointer(text.data(), text.size()))
        throw std::invalid_argument(
            "simd_json: \"" + std::string(text) + "\" is no JSON Pointer (RFC 6901): write / before "
            "each key and index, as in /users/0/name, and in a key ~1 for / and ~0 for ~");
}

/* The text that `print` writes to the front of a string, again while there is too little room. */
template <class Print> std::string printed(size_t needed, Print print) {
    std::string out;
    do
        out.resize(needed);
    while (print(out, needed) == SIMD_JSON_TOO_LITTLE_ROOM);
    out.resize(needed);
    return out;
}

/* Without NDEBUG an element has the number of its parse, and is larger. So it has another name
 * then: parts of a program that differ in NDEBUG and pass elements to each other are not linked. */
#ifdef NDEBUG
inline namespace unchecked {
#else
inline namespace checked {
#endif

template <bool is_object> class members;
using array_view = members<false>;
using object_view = members<true>;

template <class T>
inline constexpr bool is_scalar = std::is_arithmetic_v<T> || std::is_same_v<T, std::nullptr_t>
                                  || std::is_convertible_v<const T &, std::string_view>;

/* A value of a document, which may be copied; a default one is null. It is valid until its parser
 * parses again (of parser.pointer: scans; of fields: gets), is destroyed or has another moved into
 * it, and as long as a string that was parsed in place is unchanged. Without NDEBUG it throws
 * std::logic_error, before it reads, once its parser has begun that; with NDEBUG it does not, since
 * with the test loops over a large document take 4 to 117 % longer. The rest is not tested. */
class element {
    template <class T>
    static constexpr bool is_index = (std::is_integral_v<T> || std::is_enum_v<T>)
                                     && std::is_convertible_v<T, size_t>
                                     && !std::is_same_v<T, bool> && sizeof(T) <= sizeof(size_t);

public:
    element() : element(null_document) {}

    /* The root of a document, to which it keeps a pointer. */
    explicit element(const simd_json_document &document)
        : node_(document.nodes), document_(&document) {}
    explicit element(const simd_json_document &&) = delete;

    /* SIMD_JSON_NULL to SIMD_JSON_OBJECT. */
    uint32_t kind() const { return node().kind; }
    bool is_null() const { return kind() == SIMD_JSON_NULL; }
    bool is_bool() const { return kind() == SIMD_JSON_BOOL; }
    bool is_number() const { return kind() >= SIMD_JSON_I64 && kind() <= SIMD_JSON_DECIMAL; }
    bool is_string() const { return kind() == SIMD_JSON_STRING; }
    bool is_array() const { return kind() == SIMD_JSON_ARRAY; }
    bool is_object() const { return kind() == SIMD_JSON_OBJECT; }

    /* The truth value, or nothing. `if (e.as_bool())` tests whether there is one, so it also passes
     * for `false`: `if (e.as_bool().value())`, or `.value_or(false)`, tests whether it is true. */
    std::optional<bool> as_bool() const { return if_kind(SIMD_JSON_BOOL, node().value != 0); }

    /* The value as a type, or nothing: an integer that fits, a string without its escapes, the
     * literal of a number with a fraction or an exponent, that of an integer beyond 64 bits. */
    std::optional<int64_t> as_int64() const {
        if (kind() == SIMD_JSON_I64
            || (kind() == SIMD_JSON_U64 && node_->value <= uint64_t(INT64_MAX)))
            return static_cast<int64_t>(node_->value);
        return std::nullopt;
    }
    std::optional<uint64_t> as_uint64() const {
        if (kind() == SIMD_JSON_U64 || (kind() == SIMD_JSON_I64 && node_->value == 0))
            return node_->value;
        return std::nullopt;
    }
    std::optional<std::string_view> as_string() const { return if_kind(SIMD_JSON_STRING, text()); }
    std::optional<std::string_view> as_decimal() const {
        return if_kind(SIMD_JSON_DECIMAL, text());
    }
    std::optional<std::string_view> as_wide_integer() const {
        const auto lower = if_kind(SIMD_JSON_I128, text());
        return lower ? lower : if_kind(SIMD_JSON_U128, text());
    }

    /* The number as the nearest double, infinite if it is past the greatest; only in the default
     * rounding mode (FE_TONEAREST). */
    std::optional<double> as_double() const {
        const simd_json_node &of = node();
        switch (of.kind) {
        case SIMD_JSON_I64:
            return static_cast<double>(static_cast<int64_t>(of.value));
        case SIMD_JSON_U64:
            return static_cast<double>(of.value);
        case SIMD_JSON_I128:
        case SIMD_JSON_U128:
        case SIMD_JSON_DECIMAL:
            return nearest(text());
        default:
            return std::nullopt;
        }
    }

    /* The value as a bool, an integral or floating type, a std::string or a std::string_view;
     * throws std::out_of_range if it is of another kind, or an integer that does not fit. */
    template <class T> T as() const {
        const auto value = read<T>();
        if (!value || (std::is_integral_v<T> && static_cast<T>(*value) != *value))
            throw other("value of this type");
        return static_cast<T>(*value);
    }

    /* The elements, or the members, and how many there are; throws std::out_of_range if the value
     * is of another kind. */
    array_view array() const;
    object_view object() const;
    size_t size() const;

    /* The value of the first member of an object with a key, or the element of an array with an
     * index, of any integral type of at most 64 bits but bool; if there is none, nothing, or for []
     * std::out_of_range. */
    std::optional<element> get(std::string_view key) const { return named(simd_json_get, key); }
    template <class Index, std::enable_if_t<is_index<Index>, int> = 0>
    std::optional<element> get(Index index) const {
        return index < Index{} ? std::nullopt : nth(static_cast<size_t>(index));
    }
    element operator[](std::string_view key) const {
        const std::optional<element> value = get(key);
        return value ? *value : throw absent("member \"" + std::string(key) + '"');
    }
    element operator[](const char *key) const { return (*this)[std::string_view(key)]; }
    element operator[](std::nullptr_t) const = delete;
    template <class Index, std::enable_if_t<is_index<Index>, int> = 0>
    element operator[](Index index) const {
        const std::optional<element> value = get(index);
        return value ? *value : throw absent("element " + std::to_string(index));
    }

    bool contains(std::string_view key) const { return get(key).has_value(); }

    /* The value of a member by as(), or the fallback if there is none. Its type is the fallback's,
     * of a literal std::string_view. */
    template <class T> auto value_or(std::string_view key, const T &fallback) const {
        constexpr bool is_kept = std::is_arithmetic_v<T> || std::is_same_v<T, std::string>;
        using type = std::conditional_t<is_kept, T, std::string_view>;
        const std::optional<element> value = get(key);
        return value ? value->template as<type>() : type(fallback);
    }

    /* The value that a JSON Pointer (RFC 6901) names in this one, as "/sizes/0". Throws
     * std::invalid_argument if the pointer is malformed. */
    std::optional<element> pointer(std::string_view pointer) const {
        const std::optional<element> value = named(simd_json_pointer, pointer);
        if (!value)
            require_pointer(pointer);
        return value;
    }

    /* Whether two values are the same: integers by their values, other numbers as they are written,
     * arrays and objects by their members in order. */
    friend bool operator==(const element &left, const element &right) {
        const size_t count = simd_json_next(&left.node(), 0);
        bool is_same = count == simd_json_next(&right.node(), 0);
        for (size_t i = 0; is_same && i < count; i++)
            is_same = left.ahead(i).is_like(right.ahead(i));
        return is_same;
    }
    friend bool operator!=(const element &left, const element &right) { return !(left == right); }

    /* Whether a value is a scalar: a truth value, the integer, a number whose nearest double it is,
     * the string without its escapes, or null. `root["id"] == 7`, and with `get` also if there may
     * be none: `root.get("id") == 7`. A null pointer is no string. std::ranges::find takes a scalar
     * with a projection: `find(root.array(), 7, &simd_json::element::as_int64)`. */
    template <class T, std::enable_if_t<is_scalar<T>, int> = 0>
    friend bool operator==(const element &value, const T &scalar) {
        if constexpr (std::is_same_v<T, std::nullptr_t>)
            return value.is_null();
        else if constexpr (std::is_pointer_v<T>)
            return scalar ? value.as_string() == std::string_view(scalar) : false;
        else
            return value.template read<T>() == scalar;
    }
    template <class T, std::enable_if_t<is_scalar<T>, int> = 0>
    friend bool operator==(const T &scalar, const element &value) {
        return value == scalar;
    }
    template <class T, std::enable_if_t<is_scalar<T>, int> = 0>
    friend bool operator!=(const element &value, const T &scalar) {
        return !(value == scalar);
    }
    template <class T, std::enable_if_t<is_scalar<T>, int> = 0>
    friend bool operator!=(const T &scalar, const element &value) {
        return !(value == scalar);
    }

private:
    template <bool> friend class members;
    friend class parser;
    friend class fields;
    friend std::string to_string(const element &, uint32_t);

    /* A document of a parser, and how many parses that has begun. */
    struct lent : simd_json_document {
        uint64_t parses = 0;
    };

    static constexpr simd_json_node null_node{};
    static constexpr simd_json_document null_document{&null_node, 1, nullptr, 0};

    explicit element(const lent &from) : element(from.nodes, &from, from.parses) {}
    element ahead(size_t nodes) const {
        element at = *this;
        at.node_ += nodes;
        return at;
    }

    /* It is valid until `calls`, which is of a parser, changes. */
#ifdef NDEBUG
    element(const simd_json_node *node, const simd_json_document *document, const uint64_t &)
        : node_(node), document_(document) {}
    const simd_json_node &node() const { return *node_; }
#else
    element(const simd_json_node *node, const simd_json_document *document, const uint64_t &calls)
        : node_(node), document_(document), calls_(&calls), call_(calls) {}
    const simd_json_node &node() const {
        if (calls_ && *calls_ != call_)
            throw std::logic_error("simd_json: an element of an earlier parse");
        return *node_;
    }
#endif
    static std::out_of_range absent(const std::string &what) {
        return std::out_of_range("simd_json: no " + what);
    }
    std::out_of_range other(const std::string &wanted) const {
        return absent(wanted + ", but " + simd_json_kind_text(kind()));
    }
    /* The value as the widest type of T's kind, or nothing. */
    template <class T> auto read() const {
        if constexpr (std::is_same_v<T, bool>)
            return as_bool();
        else if constexpr (std::is_floating_point_v<T>)
            return as_double();
        else if constexpr (std::is_unsigned_v<T>)
            return as_uint64();
        else if constexpr (std::is_integral_v<T>)
            return as_int64();
        else
            return as_string();
    }
    /* Whether two nodes are alike; -0 is 0. */
    bool is_like(const element &other) const {
        if (const std::optional<int64_t> integer = as_int64())
            return integer == other.as_int64();
        return kind() == other.kind() && node_->len == other.node_->len
               && (holds_text() ? text() == other.text() : node_->value == other.node_->value);
    }
    std::string_view text() const {
        return {document_->text + (holds_text() ? node_->value : 0), holds_text() ? node_->len : 0};
    }
    bool holds_text() const { return kind() >= SIMD_JSON_I128 && kind() <= SIMD_JSON_STRING; }
    std::optional<element> nth(size_t index) const;
    std::optional<element> named(decltype(simd_json_get) call, std::string_view name) const {
        const simd_json_node *const of = &node(); /* tested before an argument is read */
        const size_t at = call(of, simd_json_next(of, 0), document_->text, document_->text_len, 0,
                               name.data(), name.size());
        return at == SIMD_JSON_NO_NODE ? std::nullopt : std::optional(ahead(at));
    }
    element after() const { return ahead(simd_json_next(&node(), 0)); }
    element beneath() const { return ahead(1); }
    template <class T> std::optional<T> if_kind(uint32_t kind, T value) const {
        return node().kind == kind ? std::optional<T>(value) : std::nullopt;
    }
    static double nearest(std::string_view literal) {
        double number = 0;
        simd_json_double(literal.data(), literal.size(), &number);
        return number;
    }

    const simd_json_node *node_;
    const simd_json_document *document_;
#ifndef NDEBUG
    const uint64_t *calls_ = nullptr; /* of the parser that lent the document, if one did */
    uint64_t call_ = 0;
#endif
};

/* The members of a container, for a range-for and for the views of C++20: the elements of an array,
 * or the keys of an object with their values. */
template <bool is_object> class members {
public:
    using item = std::conditional_t<is_object, std::pair<std::string_view, element>, element>;
    class iterator {
    public:
        using iterator_category = std::input_iterator_tag;  /* for items are no references */
        using iterator_concept = std::forward_iterator_tag; /* which C++20 does not ask for */
        using value_type = item;
        using difference_type = std::ptrdiff_t;
        using pointer = std::optional<item>; /* which holds it */
        using reference = item;
        iterator() = default;
        iterator(element at, size_t left) : at_(at), left_(left) {}
        item operator*() const {
            if constexpr (is_object)
                return {at_.text(), at_.after()};
            else
                return at_;
        }
        pointer operator->() const { return **this; }
        iterator &operator++() {
            at_ = is_object ? at_.after().after() : at_.after();
            left_--;
            return *this;
        }
        iterator operator++(int) {
            iterator before = *this;
            ++*this;
            return before;
        }
        bool operator==(const iterator &other) const { return left_ == other.left_; }
        bool operator!=(const iterator &other) const { return left_ != other.left_; }

    private:
        element at_;
        size_t left_ = 0;
    };
    members() = default;
    explicit members(element of) : first_(of.beneath()), len_(of.node().len) {
        if (of.kind() != (is_object ? SIMD_JSON_OBJECT : SIMD_JSON_ARRAY))
            throw of.other(is_object ? "object" : "array");
    }
    iterator begin() const { return {first_, len_}; }
    iterator end() const { return {first_, 0}; }
    size_t size() const { return len_; }

private:
    element first_;
    size_t len_ = 0;
};

inline array_view element::array() const { return array_view(*this); }
inline object_view element::object() const { return object_view(*this); }
inline size_t element::size() const { return is_object() ? object().size() : array().size(); }

inline std::optional<element> element::nth(size_t index) const {
    for (element value : is_array() ? array() : array_view())
        if (index-- == 0)
            return value;
    return std::nullopt;
}

/* A value as a document, by simd_json_print: without whitespace, or SIMD_JSON_PRETTY. Numbers keep
 * all their digits. Throws std::bad_alloc. */
inline std::string to_string(const element &value, uint32_t layout = SIMD_JSON_COMPACT) {
    const simd_json_node *const of = &value.node();
    const simd_json_document &in = *value.document_;
    const size_t count = simd_json_next(of, 0);
    const size_t each = layout == SIMD_JSON_COMPACT ? 24 : 48; /* enough for most */
    return printed(each * count + of->len, [&](auto &out, auto &needed) {
        const int32_t status = simd_json_print(of, count, in.text, in.text_len, 0, layout,
                                               out.data(), out.size(), &needed);
        if (status == SIMD_JSON_OUT_OF_MEMORY)
            throw std::bad_alloc();
        return status;
    });
}

inline std::ostream &operator<<(std::ostream &out, const element &value) {
    return out << to_string(value);
}

/* A parser, which keeps its memory from one input to the next. One thread uses it at a time. It may
 * be moved, and its elements stay valid; the one that it was moved from is closed, and rejects each
 * text with SIMD_JSON_PARSER_CLOSED. */
class parser {
public:
    parser() : parser(1024) {}
    explicit parser(size_t max_depth) : state_(std::make_unique<state>()) {
        if (simd_json_open(&state_->parser, max_depth) != SIMD_JSON_OK)
            throw std::bad_alloc();
    }

    /* Parses a copy of the text. Throws its first error, or std::bad_alloc. The document is in the
     * parser, which so can't be a temporary. */
    element parse(std::string_view text) & {
        call(text, &parser::try_parse);
        return root();
    }
    element parse(std::string_view) && = delete;

    /* The same, but throws only std::bad_alloc: after SIMD_JSON_OK root() is the document, after
     * another status error(status, place, text) has line, column and reason. */
    int32_t try_parse(std::string_view text, simd_json_place &place) {
        const int32_t status = take(text, place);
        return status != SIMD_JSON_OK
                   ? status
                   : state_->parse(state_->input.get(), text.size(), place);
    }

    /* Parses without a copy, which takes 6 to 20 % of the time. The string is OVERWRITTEN, and
     * strings and literals of the document are in it: it must not be moved or changed as long as
     * elements are used. An error has its index, but no line and column, since the text is lost. */
    element parse_in_place(std::string &text) & {
        simd_json_place place;
        state *const in = begin(place);
        check_status(in ? in->parse(text.data(), text.size(), place) : SIMD_JSON_PARSER_CLOSED,
                     place);
        return root();
    }
    element parse_in_place(std::string &) && = delete;

    /* Throws the first error of a text that is not a document, or std::bad_alloc. The text is not
     * copied. The document that was parsed before ends, as at each of these calls. */
    void check(std::string_view text) { call(text, &parser::try_check); }
    int32_t try_check(std::string_view text, simd_json_place &place) {
        return read(simd_json_parser_check, text, place);
    }

    /* The text of a document, or of the value in it that a JSON Pointer (RFC 6901) names, by
     * simd_json_parser_print, which is proved. Throws the first error of the text, or one with
     * SIMD_JSON_NO_VALUE, or std::bad_alloc. */
    std::string print(std::string_view text, std::string_view pointer = {},
                      uint32_t layout = SIMD_JSON_COMPACT) {
        std::string kept, kept_pointer;
        own(text, kept);
        own(pointer, kept_pointer);
        require_pointer(pointer);
        /* That is enough for compact text. */
        return printed(text.size() <= UINT32_MAX ? text.size() : 0, [&](auto &out, auto &needed) {
            simd_json_place place;
            int32_t status = take(text, place);
            if (status == SIMD_JSON_OK)
                status = simd_json_parser_print(&state_->parser, state_->input.get(), text.size(),
                                                pointer.data(), pointer.size(), layout, out.data(),
                                                out.size(), &needed, &place);
            if (status != SIMD_JSON_TOO_LITTLE_ROOM)
                check_status(status, place, text);
            return status;
        });
    }

    /* Values on demand: keeps a copy of the text, instead of the one before, for pointer(). Only
     * its size and encoding are checked, that strings end and contain no byte below 0x20, and all
     * of one word or number: throws such an error, or std::bad_alloc. */
    void scan(std::string_view text) {
        decltype(state::found) ended; /* whose strings may be the text */
        if (state_) {
            ended.swap(state_->found);
            state_->scans++;
        }
        call(text, &parser::try_scan);
    }

    /* The value that a JSON Pointer (RFC 6901) names in the text that is kept, or nothing if the
     * text is a document without it. It is kept, and so valid, until the next scan. Only the value
     * and what is on the way to it are checked: it may also be found in a text that is not a
     * document. If it is absent or malformed all is checked, once: throws the first error of the
     * text, whose places count from the first byte of its root, or std::bad_alloc; and
     * std::invalid_argument if the pointer is malformed. */
    std::optional<element> pointer(std::string_view pointer) & {
        if (const auto known = state_ ? state_->known(pointer) : std::nullopt)
            return known;
        std::string kept;
        own(pointer, kept);
        require_pointer(pointer);
        simd_json_place place;
        state *const in = begin(place);
        const std::optional<size_t> len = in ? in->find(pointer) : std::nullopt;
        const int32_t status = len ? in->parse(in->input.get(), *len, place) : SIMD_JSON_NO_VALUE;
        if (status == SIMD_JSON_OK)
            return in->known(pointer, &in->document);
        if (status == SIMD_JSON_OUT_OF_MEMORY)
            throw std::bad_alloc();
        if (in && in->unchecked) {
            const std::optional<size_t> root = in->find("");
            if (!root) /* it has no end */
                throw error(SIMD_JSON_SYNTAX, nowhere);
            check(std::string(in->input.get(), *root).append(*root != in->unchecked, '?'));
            in->unchecked = 0;
        }
        return std::nullopt;
    }
    std::optional<element> pointer(std::string_view) && = delete;

    /* The document that was parsed last. Throws std::logic_error if there was none, or it was
     * rejected. */
    element root() const & {
        if (!state_ || !state_->document.nodes)
            throw std::logic_error("simd_json: the parser has no document");
        return element(state_->document);
    }
    element root() const && = delete;

private:
    friend class fields;
    static constexpr simd_json_place nowhere{0, SIMD_JSON_NO_CHARACTER};

    /* A value that was found, and its memory: the nodes, and behind them the text. */
    struct found_value {
        simd_json_document document;
        std::unique_ptr<simd_json_node[]> memory;
    };

    /* Behind a pointer, so that the document and its text stay in place when the parser is moved: a
     * short string has its bytes in itself. */
    struct state {
        simd_json_parser parser{};
        element::lent document;
        std::unique_ptr<char[]> input; /* a copy of a text */
        size_t capacity = 0;
        size_t unchecked = 0; /* the scanned text's length, unless it is known to be a document */
        std::map<std::string, found_value, std::less<>> found; /* in that text, by their pointers */
        uint64_t scans = 0;

        state() = default;
        state(const state &) = delete;
        state &operator=(const state &) = delete;
        ~state() { simd_json_close(&parser); }
        void reserve(size_t len) {
            if (capacity < len) {
                input.reset(new char[len]);
                capacity = len;
            }
        }
        void copy(std::string_view text) {
            reserve(text.size());
            if (!text.empty()) /* of a string of the document, in the same memory */
                std::memmove(input.get(), text.data(), text.size());
        }
        /* The length of the value that is found, which is at the front of the input then. */
        std::optional<size_t> find(std::string_view pointer) {
            for (;;) {
                simd_json_found found;
                const int32_t status =
                    simd_json_parser_pointer(&parser, pointer.data(), pointer.size(), &found,
                                             input.get(), capacity);
                if (status == SIMD_JSON_OK)
                    return found.len;
                if (status != SIMD_JSON_TOO_LITTLE_ROOM)
                    return std::nullopt;
                reserve(found.len);
            }
        }
        /* What was found before by a pointer, or else a document, which is kept. */
        std::optional<element> known(std::string_view pointer,
                                     const simd_json_document *of = nullptr) {
            auto at = found.find(pointer);
            if (at == found.end() && of) {
                const size_t units = of->nodes_len + of->text_len / sizeof *of->nodes + 1;
                found_value in{*of, std::unique_ptr<simd_json_node[]>(new simd_json_node[units])};
                void *const text = in.memory.get() + of->nodes_len;
                std::copy_n(of->nodes, of->nodes_len, in.memory.get());
                in.document.nodes = in.memory.get();
                in.document.text = static_cast<char *>(std::memcpy(text, of->text, of->text_len));
                at = found.emplace(pointer, std::move(in)).first;
            }
            if (at == found.end())
                return std::nullopt;
            return element(at->second.document.nodes, &at->second.document, scans);
        }
        void forget() {
            static_cast<simd_json_document &>(document) = {};
            document.parses++;
        }
        int32_t parse(char *text, size_t len, simd_json_place &place) {
            return simd_json_parser_parse(&parser, text, len, &document, &place);
        }
    };

    /* The state for a call, which ends the document before it; null if the parser is closed. */
    state *begin(simd_json_place &place) {
        place = nowhere;
        if (state_)
            state_->forget();
        return state_.get();
    }

    /* The same, and keeps a copy of a text, which may be the document's, unless it is too large. */
    int32_t take(std::string_view text, simd_json_place &place) {
        const bool is_taken = text.size() <= UINT32_MAX;
        if (state_ && is_taken)
            state_->copy(text);
        return !begin(place) ? SIMD_JSON_PARSER_CLOSED
               : is_taken   ? SIMD_JSON_OK
                            : SIMD_JSON_INPUT_TOO_LARGE;
    }

    /* What a call of the library returns of a text, which it leaves as it is and may be the
     * document's. */
    int32_t read(decltype(simd_json_parser_check) of, std::string_view text,
                 simd_json_place &place) {
        place = nowhere;
        if (!state_)
            return SIMD_JSON_PARSER_CLOSED;
        const int32_t status = of(&state_->parser, text.data(), text.size(), &place);
        state_->forget();
        return status;
    }
    int32_t try_scan(std::string_view text, simd_json_place &place) {
        const int32_t status = read(simd_json_parser_scan, text, place);
        if (!state_)
            return status;
        const char blanks[] = " \t\n\r";
        const size_t first = text.find_first_not_of(blanks);
        const bool is_scanned = status == SIMD_JSON_OK;
        state_->unchecked = is_scanned ? text.find_last_not_of(blanks) + 1 - first : 0;
        const bool is_word = is_scanned && std::string_view("[{\"").find(text[first]) == text.npos;
        return is_word ? try_check(text, place) : status;
    }
    /* Throws the error of a call with a text. */
    void call(std::string_view text, int32_t (parser::*of)(std::string_view, simd_json_place &)) {
        std::string kept;
        own(text, kept);
        simd_json_place place;
        check_status((this->*of)(text, place), place, text);
    }

    template <class... Text>
    static void check_status(int32_t status, const simd_json_place &place, Text... text) {
        if (status == SIMD_JSON_OUT_OF_MEMORY)
            throw std::bad_alloc();
        if (status != SIMD_JSON_OK)
            throw error(status, place, text...);
    }

    /* A string of the document, which the next call overwrites, becomes a copy. */
    void own(std::string_view &text, std::string &kept) const {
        if (is_lent(text))
            text = kept.assign(text);
    }

    /* Whether a text is a string of the document. */
    bool is_lent(std::string_view text) const {
        const std::less<const char *> is_before;
        return state_ && state_->document.text && !is_before(text.data(), state_->document.text)
               && is_before(text.data(), state_->document.text + state_->document.text_len);
    }

    std::unique_ptr<state> state_;
};

/* The values of several JSON Pointers (RFC 6901) in one text after another, each found in one walk:
 *
 *     simd_json::fields wanted({"/status", "/request/path"});
 *     for (std::string line; std::getline(in, line);)
 *         if (const auto &found = wanted.get(line); found[0] == 404 && found[1])
 *             std::cout << found[1]->as<std::string_view>() << '\n';
 *
 * It may be moved, as a parser. One thread uses it at a time. */
class fields {
public:
    /* For pointers in braces, or in any container of strings. Throws std::invalid_argument if one
     * is malformed or not UTF-8, or std::bad_alloc. */
    template <class Pointers = std::initializer_list<std::string_view>,
              std::enable_if_t<std::is_convertible_v<
                  decltype(*std::begin(std::declval<const Pointers &>())), std::string_view>, int> = 0>
    explicit fields(const Pointers &pointers, size_t max_depth = 1024)
        : parser_(max_depth < SIZE_MAX ? max_depth + 1 : max_depth), max_depth_(max_depth) {
        for (const std::string_view pointer : pointers) {
            require_pointer(pointer);
            const int32_t status = simd_json_parser_add(&parser_.state_->parser, pointer.data(),
                                                        pointer.size());
            if (status == SIMD_JSON_INVALID_POINTER)
                throw std::invalid_argument("simd_json: a JSON Pointer that is not UTF-8");
            parser::check_status(status, parser::nowhere);
            found_.emplace_back();
        }
        nodes_.resize(found_.size());
        values_.resize(found_.size());
    }

    /* Of each pointer, in their order, the value or nothing, until the next get. Strings without
     * escapes and literals are in the text, which must live and stay unchanged as long; other
     * strings, arrays and objects are parsed from a copy. Throws an error of the whole text as
     * parser.scan does, or std::bad_alloc. Only the values and what is on the way to them are
     * checked, but if one is absent or malformed all is: throws the first error of the text. */
    const std::vector<std::optional<element>> &get(std::string_view text) & {
        simd_json_place place;
        parser::state *const in = parser_.begin(place);
        int32_t status = SIMD_JSON_PARSER_CLOSED;
        if (in)
            status = simd_json_parser_pointers(&in->parser, text.data(), text.size(),
                                               found_.data(), found_.size(), &place);
        parser::check_status(status, place, text);
        std::vector<char> &copy = copies_[is_within(text, copies_[0])];
        copy.clear();
        *line_ = {nodes_.data(), nodes_.size(), text.data(), text.size()};
        bool is_missing = false;
        for (size_t i = 0; i < found_.size(); i++) {
            const simd_json_field &of = found_[i];
            const uint32_t quotes = of.kind == SIMD_JSON_STRING;
            nodes_[i] = {of.kind, static_cast<uint32_t>(of.len) - 2 * quotes, of.value + quotes};
            values_[i] = element(&nodes_[i], line_.get(), in->document.parses);
            is_missing |= of.kind == SIMD_JSON_MISSING;
            if (of.kind == SIMD_JSON_MISSING)
                values_[i].reset();
            if (!is_parsed(of))
                continue;
            copy.push_back(copy.empty() ? '[' : ',');
            copy.insert(copy.end(), text.data() + of.value, text.data() + of.value + of.len);
        }
        if (is_missing)
            check(text);
        if (!copy.empty())
            parse(*in, copy, text);
        return values_;
    }
    const std::vector<std::optional<element>> &get(std::string_view) && = delete;
    template <class T, std::enable_if_t<std::is_same_v<T, std::string>, int> = 0>
    const std::vector<std::optional<element>> &get(T &&) & = delete;

private:
    static bool is_parsed(const simd_json_field &of) {
        return of.has_escape || of.kind == SIMD_JSON_ARRAY || of.kind == SIMD_JSON_OBJECT;
    }
    static bool is_within(std::string_view text, const std::vector<char> &in) {
        const std::less<const char *> is_before;
        return !is_before(text.data(), in.data()) && is_before(text.data(), in.data() + in.size());
    }
    void check(std::string_view text) const {
        simd_json_place place;
        const int32_t status = simd_json_check(text.data(), text.size(), max_depth_, &place);
        parser::check_status(status, place, text);
    }
    /* An array of what is parsed. */
    void parse(parser::state &in, std::vector<char> &copy, std::string_view text) {
        simd_json_place place;
        copy.push_back(']');
        const int32_t status = in.parse(copy.data(), copy.size(), place);
        if (status != SIMD_JSON_OK && status != SIMD_JSON_OUT_OF_MEMORY)
            check(text);
        parser::check_status(status, place);
        size_t at = 1;
        for (size_t i = 0; i < found_.size(); i++) {
            if (!is_parsed(found_[i]))
                continue;
            values_[i] = element(in.document.nodes + at, &in.document, in.document.parses);
            at = simd_json_next(in.document.nodes, at);
        }
    }

    parser parser_; /* for one array more */
    size_t max_depth_;
    std::vector<simd_json_field> found_;
    std::vector<simd_json_node> nodes_; /* of what is in the text */
    std::unique_ptr<simd_json_document> line_ = std::make_unique<simd_json_document>();
    std::vector<std::optional<element>> values_;
    std::vector<char> copies_[2]; /* one is parsed, the text may be a string in the other */
};

} // inline namespace
} // namespace simd_json

#if defined(__cpp_lib_ranges)
template <bool is_object>
inline constexpr bool std::ranges::enable_view<simd_json::members<is_object>> = true;
template <bool is_object>
inline constexpr bool std::ranges::enable_borrowed_range<simd_json::members<is_object>> = true;
#endif

#endif
