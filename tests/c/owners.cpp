// Texts that the wrapper for C++ copies and texts that it parses in place, of each length up to past what a string has in itself; and
// callers that change, move or free what was parsed in place. Silent where all is well: most of it is for sanitizers and valgrind.
#include <iostream>
#include <simd_json.hpp>
#include <vector>

static int failures = 0;
#define EXPECT(condition) ((condition) ? void() : void((std::cerr << "owners.cpp:" << __LINE__ << ": " #condition "\n", failures++)))

using simd_json::parser;

// A document with an escape, a decimal, a wide integer and a string of so many bytes.
static std::string text_of(size_t len) {
    return R"(["\u00e9",1.50,18446744073709551616,")" + std::string(len, 'x') + "\"]";
}

static bool is_that(const simd_json::element &root, size_t len) {
    return root[0] == "é" && root[1].as_decimal() == "1.50" && root[1] == 1.5
           && root[2].as_wide_integer() == "18446744073709551616"
           && root[3] == std::string(len, 'x');
}

// A string of a few bytes, which has them in itself.
static bool is_short(const parser &p, const char *wanted) {
    return p.root().as_string() == wanted;
}

static parser parsed(std::string text) {
    parser p;
    p.parse(std::move(text));
    return p;
}

static void are_copied() {
    parser p;
    for (size_t len = 0; len < 100; len++) {
        std::string text = text_of(len);
        const auto root = p.parse(text);
        EXPECT(text == text_of(len));
        text.assign(200, '!');
        EXPECT(is_that(root, len) && is_that(p.parse(text_of(len)), len));
        EXPECT(is_short(parsed("\"" + std::string(len, 'y') + "\\n\""),
                        (std::string(len, 'y') + "\n").c_str()));
    }
    // Until the next text, also one that is in it or is rejected.
    const auto inner = p.parse(std::string(R"(["[\"a\\u0062\"]", "7"])"));
    EXPECT(p.parse(inner[0].as_string().value())[0] == "ab");
    const auto again = p.parse(std::string(R"(["[1, 2]", "[1, 2"])"));
    simd_json_place place;
    EXPECT(p.try_check(again[1].as_string().value(), place) == SIMD_JSON_SYNTAX);
    const auto last = p.parse(std::string(R"(["[1, 2]", "7"])"));
    EXPECT(p.try_parse(last[0].as_string().value(), place) == SIMD_JSON_OK && p.root()[1] == 2);
    EXPECT(p.try_parse(std::string("[1, 2"), place) == SIMD_JSON_SYNTAX);
    EXPECT(p.try_parse(std::string("\"\\u0041\""), place) == SIMD_JSON_OK && is_short(p, "A"));
}

template <class T> static bool is_rejected(T call, int32_t status) {
    try {
        call();
    } catch (const simd_json::error &e) {
        return e.status() == status;
    }
    return false;
}

// Views of a short string stay right although a move of a string moves its bytes.
static void are_moved() {
    parser first = parsed(R"("\u0061bc")");
    const auto root = first.root();
    const auto view = root.as_string().value();
    parser second(std::move(first));
    EXPECT(root.as_string() == "abc" && view == "abc" && is_short(second, "abc"));
    first = parsed(R"("d\u0065f")");
    std::swap(first, second);
    EXPECT(view == "abc" && is_short(first, "abc") && is_short(second, "def"));
    second = std::move(first);
    EXPECT(view == "abc" && is_short(second, "abc"));
    std::vector<parser> many;
    for (int i = 0; i < 20; i++)
        many.push_back(parsed("\"\\u006e" + std::to_string(i) + "\""));
    for (int i = 0; i < 20; i++)
        EXPECT(is_short(many[i], ("n" + std::to_string(i)).c_str()));
    // A parser that was moved from takes no string.
    std::string text = "[1]";
    simd_json_place place;
    EXPECT(first.try_parse(text, place) == SIMD_JSON_PARSER_CLOSED && text == "[1]");
    EXPECT(is_rejected([&] { first.parse_in_place(text); }, SIMD_JSON_PARSER_CLOSED) && text == "[1]");
}

static void are_parsed_in_place() {
    parser p;
    for (size_t len = 0; len < 100; len++) {
        std::string text = text_of(len);
        const size_t size = text.size();
        const auto lent = p.parse_in_place(text);
        EXPECT(is_that(lent, len) && text.size() == size);
        EXPECT(lent[0].as_string()->data() == text.data() + 2 && lent[1].as_decimal()->data() == text.data() + 10);
        parser to(std::move(p));
        EXPECT(is_that(to.root(), len));
        p = std::move(to);
    }
    // What is a copy: a view, a const string, a literal, an array, bytes with a length.
    const std::string kept = R"("\u0061")";
    struct named : std::string {
        using std::string::string;
    };
    char array[] = R"("\u0061")";
    EXPECT(p.parse(kept) == "a" && p.parse(std::string_view(kept)) == "a");
    EXPECT(p.parse(R"("\u0061")") == "a" && p.parse(array) == "a" && p.parse({array, 8}) == "a");
    EXPECT(p.parse(named(array)) == "a" && p.parse(std::as_const(kept)) == "a");
    EXPECT(kept == array && kept == R"("\u0061")");
    // A part of a string that was parsed in place.
    std::string outer = R"(["[\"\\u0061\"]", 0])";
    EXPECT(p.parse(p.parse_in_place(outer)[0].as_string().value())[0] == "a");
}

// A string of whatever kind is as it was, and its error has line and reason; of what is overwritten the reason says what has them.
static void are_rejected() {
    parser p;
    const std::string wanted = "[\"\\n\",\n]";
    std::string text = wanted;
    for (int kind = 0; kind < 4; kind++) {
        try {
            kind == 0   ? p.parse(std::string_view(text))
            : kind == 1 ? p.parse(std::string(text))
            : kind == 2 ? p.parse(text)
                        : p.parse_in_place(text);
            EXPECT(false);
        } catch (const simd_json::error &e) {
            EXPECT(e.status() == SIMD_JSON_INTERNAL_ERROR && e.index() == 7 && e.character() == ']');
            EXPECT(e.line() == (kind < 3 ? 2 : 0) && e.column() == (kind < 3 ? 1 : 0));
            EXPECT(e.reason() == (kind < 3 ? "expected a value, found `]`" : "parse(), which takes a copy, has line, column and reason"));
            EXPECT(kind == 3 || text == wanted);
        }
    }
}

// Every call of an element that may read texts; what they return is not said.
static void read_all(const simd_json::element &value) {
    for (const auto element : value.is_array() ? value.array() : simd_json::array_view())
        read_all(element);
    for (const auto &[key, member] : value.is_object() ? value.object() : simd_json::object_view()) {
        (void)value.get(key);
        read_all(member);
    }
    (void)(value == value);
    (void)value.pointer("/1/b~1/0");
    (void)(value == "x");
    (void)value.as_double();
    (void)to_string(value, SIMD_JSON_PRETTY);
}

// What was parsed in place is changed: nothing is read outside, and numbers and counts, which are not in it, stay.
static void change_what_was_parsed() {
    parser p;
    for (const char byte : {'"', '\\', '9', '\0', '\x80', '\xff'}) {
        std::string text = R"([{"a\n":1.5e3},{"b/":[7,"\u00e9\ud83d\ude00"],"":340282366920938463463374607431768211455}])";
        const auto root = p.parse_in_place(text);
        text.replace(0, text.size(), text.size(), byte);
        read_all(root);
        EXPECT(root.array().size() == 2 && root[1].object().size() == 2);
        EXPECT((*root[1].object().begin()).second[0] == 7);
    }
}

// What was parsed in place is freed, or moved as the bytes of a short string are: the parser does not look at it again.
static void free_what_was_parsed() {
    parser p;
    for (int call = 0; call < 7; call++) {
        auto text = std::make_unique<std::string>(call % 2 ? "[1,\"\\n\"]" : text_of(100));
        const auto root = p.parse_in_place(*text);
        const std::string to = std::move(*text);
        text.reset();
        EXPECT(root.array().size() == (call % 2 ? 2 : 4) && root.kind() == SIMD_JSON_ARRAY);
        simd_json_place place;
        switch (call) {
        case 0: EXPECT(p.parse("[\"\\u0061\"]")[0] == "a"); break;
        case 1: EXPECT(p.try_parse("[", place) == SIMD_JSON_SYNTAX); break;
        case 2: EXPECT(p.try_check("[]", place) == SIMD_JSON_OK); break;
        case 3: EXPECT(p.print("[ ]") == "[]"); break;
        case 4: p.scan("[5]"); EXPECT(p.pointer("/0") == 5); break;
        case 5: p = parser(); break;
        default: break;
        }
    }
}

int main() {
    are_copied();
    are_moved();
    are_parsed_in_place();
    are_rejected();
    change_what_was_parsed();
    free_what_was_parsed();
    return failures != 0;
}
