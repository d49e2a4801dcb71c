// Calls the C++ wrapper: values, look-up, errors, and a parser that is used again, moved or closed.
// Silent where all is well.
#include <algorithm>
#include <cmath>
#include <iostream>
#include <simd_json.hpp>
#include <sstream>
#include <sys/mman.h>
#include <vector>

static int failures = 0;
#define EXPECT(condition) ((condition) ? void() : void((std::cerr << __LINE__ << ": " #condition "\n", failures++)))

// Whether the call throws an E with these words, or any.
template <class E, class T> static bool ends_by(T call, std::string_view words = {}) {
    try {
        call();
    } catch (const E &e) {
        return words.empty() || words == e.what();
    }
    return false;
}

// Whether each call says that an element is of an earlier parse.
template <class... T> static bool are_over(T... calls) {
    return (ends_by<std::logic_error>(calls, "simd_json: an element of an earlier parse") && ...);
}

template <class T> static bool throws(T call, int32_t status, size_t index) {
    try {
        call();
    } catch (const simd_json::error &e) {
        return e.status() == status && e.index() == index;
    }
    return false;
}

// What is asked of an element after another parse has begun. The first needs more memory for nodes
// than there is, so that the element's are freed: with sanitizers nothing is read before it throws.
static void end_with_their_parse() {
#ifndef NDEBUG
    simd_json::parser parser;
    const auto root = parser.parse(R"({"a":["b"],"c":[]})");
    const auto a = root["a"];
    const auto elements = a.array();
    const auto members = root.object();
    std::string large = "[";
    for (int i = 0; i < 100000; i++)
        large += "0,";
    for (const std::string_view text : {std::string_view(large += "0]"), std::string_view("[1,2,3]"),
                                        std::string_view("["), std::string_view(R"({"a":["b"]})")}) {
        simd_json_place place;
        parser.try_parse(text, place);
        EXPECT(ends_by<std::logic_error>([&] { root.kind(); },
                                         "simd_json: an element of an earlier parse"));
        EXPECT(are_over([&] { root.is_null(); }, [&] { root.is_array(); }, [&] { root.is_object(); }));
        EXPECT(are_over([&] { root["a"]; }, [&] { root[std::string("a")]; }, [&] { a[0]; }));
        EXPECT(are_over([&] { root.get("a"); }, [&] { a.get(0); }, [&] { root.pointer("/a"); }));
        EXPECT(are_over([&] { root.pointer(""); }, [&] { a.pointer("/0"); }, [&] { a.get("a"); }));
        EXPECT(are_over([&] { a.as_bool(); }, [&] { a.as_string(); }, [&] { a.as_decimal(); }));
        EXPECT(are_over([&] { a.as_int64(); }, [&] { a.as_uint64(); }, [&] { a.as_double(); }));
        EXPECT(are_over([&] { a.as_wide_integer(); }, [&] { a.array(); }, [&] { root.object(); }));
        EXPECT(are_over([&] { (void)(a == 1); }, [&] { (void)(a == "b"); }, [&] { (void)(a == nullptr); }));
        EXPECT(are_over([&] { to_string(root); }, [&] { std::ostringstream() << a; }));
        auto element = elements.begin();
        auto member = members.begin();
        EXPECT(are_over([&] { ++element; }, [&] { element++; }, [&] { (*element).kind(); }));
        EXPECT(are_over([&] { ++member; }, [&] { member++; }, [&] { *member; }));
        // It may be handed on all the same.
        const simd_json::element copy = a;
        EXPECT(are_over([&] { copy.kind(); }) && elements.size() == 1 && members.size() == 2);
        simd_json::parser to(std::move(parser));
        EXPECT(are_over([&] { root.kind(); }, [&] { root["a"]; }, [&] { root.pointer("/a"); }));
        parser = std::move(to);
    }
#endif
}

static void have_no_document() {
    simd_json::parser parser;
    EXPECT(
        ends_by<std::logic_error>([&] { parser.root(); }, "simd_json: the parser has no document"));
    parser.parse("[1]");
    EXPECT(parser.root().is_array());
    EXPECT(throws([&] { parser.parse("nope"); }, SIMD_JSON_EXPECTED_NULL, 0));
    EXPECT(
        ends_by<std::logic_error>([&] { parser.root(); }, "simd_json: the parser has no document"));
    parser.parse("[1]");
    // More than a parser takes, which is not copied, let alone read.
    const size_t len = size_t(UINT32_MAX) + 1;
    void *const text =
        mmap(nullptr, len, PROT_READ, MAP_PRIVATE | MAP_ANONYMOUS | MAP_NORESERVE, -1, 0);
    EXPECT(text != MAP_FAILED);
    simd_json_place place;
    EXPECT(parser.try_parse({static_cast<char *>(text), len}, place) == SIMD_JSON_INPUT_TOO_LARGE);
    EXPECT(place.index == 0 && place.character == SIMD_JSON_NO_CHARACTER);
    EXPECT(ends_by<std::logic_error>([&] { parser.root(); }));
    munmap(text, len);
}

static void moved() {
    simd_json::parser from;
    const auto root = from.parse("[1]");
    simd_json::parser to(std::move(from));
    EXPECT(root[0].as_int64() == 1 && to.root()[0].as_int64() == 1);
    simd_json_place place;
    EXPECT(from.try_parse("[1]", place) == SIMD_JSON_PARSER_CLOSED && place.index == 0);
    EXPECT(throws([&] { from.parse("[1]"); }, SIMD_JSON_PARSER_CLOSED, 0));
    EXPECT(ends_by<std::logic_error>([&] { from.root(); }));
    from = simd_json::parser(1);
    EXPECT(from.parse("[2]")[0].as_int64() == 2
           && throws([&] { from.parse("[[]]"); }, SIMD_JSON_DEPTH_LIMIT_EXCEEDED, 1));
    to = std::move(from);
    EXPECT(throws([&] { to.parse("[[]]"); }, SIMD_JSON_DEPTH_LIMIT_EXCEEDED, 1)
           && to.parse("[3]")[0].as_int64() == 3);
}

// A string of the document that a parse ends is the text of that parse.
static void parse_their_own_string() {
    simd_json::parser parser;
    const std::string spaces(100000, ' ');
    const auto inner = parser.parse("[\"[1,\\n" + spaces + "2]\", \"[1,\\n" + spaces + "]\"]");
    EXPECT(parser.parse(inner[0].as_string().value())[1].as_int64() == 2);
    const auto again = parser.parse("[\"[1,\\n" + spaces + "]\"]");
    try {
        parser.parse(again[0].as_string().value());
        EXPECT(false);
    } catch (const simd_json::error &e) {
        EXPECT(e.line() == 2 && e.column() == 100001 && e.byte() == 100004);
    }
}

static void name_their_place() {
    simd_json::parser parser;
    try {
        parser.parse("[1,\n \"\u00e9\", }");
        EXPECT(false);
    } catch (const simd_json::error &e) {
        EXPECT(e.what()
               == std::string_view(
                   "InternalError at character 11, line 2 column 7: expected a value, found `}`"));
        EXPECT(e.line() == 2 && e.column() == 7 && e.byte() == 11 && e.index() == 11
               && e.character() == '}');
        EXPECT(e.reason() == "expected a value, found `}`");
    }
    try {
        parser.parse("[\n\"\xff\"]");
        EXPECT(false);
    } catch (const simd_json::error &e) {
        EXPECT(e.line() == 2 && e.column() == 2 && e.byte() == 3 && e.index() == 0
               && !e.character());
    }
    try {
        parser.parse("[1]\n[2]");
        EXPECT(false);
    } catch (const simd_json::error &e) {
        EXPECT(e.line() == 2 && e.column() == 1 && e.byte() == 4 && e.index() == 2
               && e.character() == ']');
        EXPECT(e.reason() == "more text after the document" && e.status() == SIMD_JSON_INTERNAL_ERROR);
        EXPECT(e.what()
               == std::string_view(
                   "TrailingData at character 2, line 2 column 1: more text after the document"));
    }
    try {
        parser.parse("{\"a\": \"b,\n \"c\": 1}");
        EXPECT(false);
    } catch (const simd_json::error &e) {
        EXPECT(e.reason() == "a line feed in the string that begins at 1:7");
    }
    simd_json_place place;
    const int32_t status = parser.try_parse("[01]", place);
    const simd_json::error bare(status, place), located(status, place, "[01]");
    EXPECT(bare.line() == 0 && bare.column() == 0);
    EXPECT(bare.reason() == "parse(), which takes a copy, has line, column and reason");
    EXPECT(bare.what() == std::string_view("InvalidNumber at character 2"));
    EXPECT(located.line() == 1 && located.column() == 3 && !located.reason().empty());
    // Past the end there is a space; of a wrong escape the character is the byte after the backslash.
    EXPECT(parser.try_parse("-", place) == SIMD_JSON_INVALID_NUMBER && place.index == 1 && place.character == ' ');
    EXPECT(parser.try_parse(R"("\q")", place) == SIMD_JSON_INVALID_ESCAPE && place.index == 1 && place.character == 'q');
    const simd_json::error closed(SIMD_JSON_PARSER_CLOSED, {0, SIMD_JSON_NO_CHARACTER}, "");
    EXPECT(closed.line() == 0 && closed.reason().empty());
}

static void take_each_index() {
    enum column { FIRST, SECOND };
    simd_json::parser parser;
    const auto root = parser.parse("[10,20]");
    EXPECT(root[1].as_int64() == 20 && root[1u].as_int64() == 20 && root[1L].as_int64() == 20);
    EXPECT(root[1UL].as_int64() == 20 && root[1LL].as_int64() == 20 && root[1ULL].as_int64() == 20);
    EXPECT(root[uint8_t(1)].as_int64() == 20 && root[int16_t(1)].as_int64() == 20
           && root[uint32_t(1)].as_int64() == 20);
    EXPECT(root[int64_t(1)].as_int64() == 20 && root[size_t(1)].as_int64() == 20
           && root[SECOND].as_int64() == 20);
    EXPECT(root[FIRST].as_int64() == 10 && root[0].as_int64() == 10 && root[0u].as_int64() == 10);
    EXPECT(ends_by<std::out_of_range>([&] { root[2u]; }, "simd_json: no element 2"));
    EXPECT(ends_by<std::out_of_range>([&] { root[-1]; }, "simd_json: no element -1"));
    EXPECT(ends_by<std::out_of_range>([&] { root[INT64_MIN]; },
                                      "simd_json: no element -9223372036854775808"));
    EXPECT(ends_by<std::out_of_range>([&] { root[UINT64_MAX]; },
                                      "simd_json: no element 18446744073709551615"));
    EXPECT(ends_by<std::out_of_range>([&] { root["size"]; }, "simd_json: no member \"size\""));
    EXPECT(ends_by<std::out_of_range>([&] { root[std::string("size")]; },
                                      "simd_json: no member \"size\""));
}

static void keep_wide_integers() {
    simd_json::parser parser;
    const auto root = parser.parse(
        "[18446744073709551616,-9223372036854775809,18446744073709551615,-1,1.5,\"1\"]");
    EXPECT(root[0].as_wide_integer() == "18446744073709551616" && root[0].kind() == SIMD_JSON_U128);
    EXPECT(root[1].as_wide_integer() == "-9223372036854775809" && root[1].kind() == SIMD_JSON_I128);
    for (int i = 2; i < 6; i++)
        EXPECT(!root[i].as_wide_integer());
}

static void compare_with_scalars() {
    simd_json::parser parser;
    const auto root = parser.parse(
        R"(["a\u00e9",7,-7,2.50,true,null,18446744073709551615,18446744073709551616,{"a":7}])");
    EXPECT(root[0] == "aé" && "aé" == root[0] && root[0] == std::string("aé") && root[0] != "a");
    EXPECT(root[0] == std::string_view("aé") && root[0] != 7 && root[0] != nullptr);
    EXPECT(root[1] == 7 && 7u == root[1] && root[1] == 7.0 && root[1] != -7 && root[1] != "7");
    EXPECT(root[1] == uint8_t(7) && root[1] == int64_t(7) && root[1] != true && root[2] != 7u);
    EXPECT(root[2] == -7 && root[2] == -7.0f && root[2] != UINT64_MAX - 6 && root[3] == 2.5
           && root[3] != 2);
    EXPECT(root[4] == true && false != root[4] && root[4] != 1 && root[5] == nullptr
           && root[5] != 0);
    EXPECT(root[6] == UINT64_MAX && root[6] != -1 && root[7] == std::ldexp(1.0, 64)
           && root[7] != UINT64_MAX);
    EXPECT(root[8] != 7 && root[8] != "a" && root[8].get("a") == 7 && root[8].get("b") != 7);
    EXPECT(root != false && root != nullptr && simd_json::element() == nullptr);
    const char *none = nullptr, *text = "aé";
    EXPECT(root[0] != none && root[5] != none && none != root[0] && root[0] == text);
}

static void compare_with_each_other() {
    simd_json::parser parser, other;
    const auto root = parser.parse(
        R"([0,-0,7,-7,"a","\u0061",[1,{"k":[]}],[1,{"k":[]}],{"k":1},{"l":1},{"k":2},1.0,1.00,1,null,true,false,[],{},[1],18446744073709551616,"18446744073709551616"])");
    const auto same = other.parse(to_string(root, SIMD_JSON_PRETTY));
    size_t i = 0;
    for (const auto left : root.array()) {
        size_t j = 0;
        for (const auto right : same.array()) {
            // -0 is 0, and an escape is its character; fractions are what is written.
            const bool is_same = i == j || (i < 2 && j < 2) || (i / 2 == 2 && j / 2 == 2)
                                 || (i / 2 == 3 && j / 2 == 3);
            EXPECT((left == right) == is_same && (left != right) != is_same);
            j++;
        }
        i++;
    }
    EXPECT(i == root.size() && root == same && root == root && root.get(6) == root[7]);
    EXPECT(std::find(root.array().begin(), root.array().end(), root[7])->size() == 2);
}

static void are_read_as_types() {
    simd_json::parser parser;
    const auto root = parser.parse(
        R"({"port":8080,"host":"h\u00e9","on":false,"ratio":2.5,"low":-129,"large":18446744073709551615,"tags":["a","b"],"none":null})");
    EXPECT(root["port"].as<int>() == 8080 && root["port"].as<uint16_t>() == 8080 && root["port"].as<double>() == 8080.0);
    EXPECT(root["host"].as<std::string>() == "hé" && root["host"].as<std::string_view>() == "hé");
    EXPECT(!root["on"].as<bool>() && root["ratio"].as<float>() == 2.5f && root["low"].as<int16_t>() == -129);
    EXPECT(root["large"].as<uint64_t>() == UINT64_MAX);
    EXPECT(ends_by<std::out_of_range>([&] { root["port"].as<int8_t>(); }, "simd_json: no value of this type, but U64"));
    EXPECT(ends_by<std::out_of_range>([&] { root["low"].as<int8_t>(); }) && ends_by<std::out_of_range>([&] { root["low"].as<unsigned>(); }));
    EXPECT(ends_by<std::out_of_range>([&] { root["large"].as<int64_t>(); }) && ends_by<std::out_of_range>([&] { root["ratio"].as<int>(); }));
    EXPECT(ends_by<std::out_of_range>([&] { root["host"].as<int>(); }, "simd_json: no value of this type, but String"));
    EXPECT(ends_by<std::out_of_range>([&] { root["port"].as<bool>(); }) && ends_by<std::out_of_range>([&] { root["on"].as<int>(); }));
    // A fallback is for what is absent, not for what is wrong.
    EXPECT(root.value_or("port", 1) == 8080 && root.value_or("prot", 1) == 1 && root.value_or("on", true) == false);
    EXPECT(root.value_or("host", "localhost") == "hé" && root.value_or("user", "nobody") == "nobody");
    EXPECT(root.value_or("user", std::string("nobody")) == "nobody" && root.value_or("ratio", 1.0) == 2.5);
    EXPECT(ends_by<std::out_of_range>([&] { root.value_or("host", 1); }) && ends_by<std::out_of_range>([&] { root.value_or("none", 1); }));
    EXPECT(root.contains("none") && !root.contains("prot") && !root["tags"].contains("a"));
    EXPECT(root.size() == 8 && root["tags"].size() == 2 && root["tags"].get(1) == "b");
    const std::string_view kinds[] = {"number", "string", "bool", "number", "number", "number", "array", "null"};
    size_t at = 0;
    for (const auto &[key, value] : root.object()) {
        EXPECT(value.is_null() == (kinds[at] == "null") && value.is_bool() == (kinds[at] == "bool"));
        EXPECT(value.is_number() == (kinds[at] == "number") && value.is_string() == (kinds[at] == "string"));
        EXPECT(value.is_array() == (kinds[at] == "array") && !value.is_object());
        at++;
    }
    // What is no array is no empty one.
    EXPECT(ends_by<std::out_of_range>([&] { root.array(); }, "simd_json: no array, but Object"));
    EXPECT(ends_by<std::out_of_range>([&] { root["tags"].object(); }, "simd_json: no object, but Array"));
    EXPECT(ends_by<std::out_of_range>([&] { root["host"].size(); }, "simd_json: no array, but String"));
    EXPECT(!root.get(0) && !root["host"].get(0) && !root["tags"].get("a"));
}

// A pointer that is none is an error, in whatever text.
static void are_malformed_pointers() {
    simd_json::parser parser;
    parser.scan(R"({"a":1,"~2":2,"~":3,"":4})");
    simd_json::parser other;
    const auto root = other.parse(R"({"a":1,"~2":2,"~":3,"":4})");
    for (const std::string_view wrong : {"a", "$.a", ".a", "a/0", "/~", "/a~", "/~2", "/~~0", "~0", " /a"}) {
        const std::string words = "simd_json: \"" + std::string(wrong) + "\" is no JSON Pointer (RFC 6901): write / before each key and"
            " index, as in /users/0/name, and in a key ~1 for / and ~0 for ~";
        EXPECT(ends_by<std::invalid_argument>([&] { parser.pointer(wrong); }, words));
        EXPECT(ends_by<std::invalid_argument>([&] { root.pointer(wrong); }, words));
        EXPECT(ends_by<std::invalid_argument>([&] { simd_json::parser().print("[1]", wrong); }, words));
    }
    EXPECT(root.pointer("/a") == 1 && root.pointer("/~02") == 2 && root.pointer("/~0") == 3 && root.pointer("/") == 4);
    EXPECT(parser.pointer("/a") == 1 && parser.pointer("/~02") == 2 && parser.pointer("/~0") == 3 && parser.pointer("/") == 4);
}

static void are_printed() {
    simd_json::parser parser;
    const char *const text =
        R"( { "a\u0001\n\"\\/": [ -0, -1, 18446744073709551615, 1.50, -9223372036854775809 ],
            "b": [ {}, [], [[]], true, false, null ] , "é": { "c": { "d": "" } } } )";
    std::ostringstream out, member;
    const auto root = parser.parse(text);
    out << root;
    EXPECT(out.str()
           == R"({"a\u0001\n\"\\/":[0,-1,18446744073709551615,1.50,-9223372036854775809],)"
              R"("b":[{},[],[[]],true,false,null],"é":{"c":{"d":""}}})");
    member << root["b"] << root["é"]["c"] << root["b"][0];
    EXPECT(member.str() == R"([{},[],[[]],true,false,null]{"d":""}{})");
    // As the library prints them, by itself and of a part.
    simd_json::parser other;
    for (const uint32_t layout : {SIMD_JSON_COMPACT, SIMD_JSON_PRETTY}) {
        EXPECT(to_string(root, layout) == other.print(text, "", layout));
        EXPECT(to_string(root["b"], layout) == other.print(text, "/b", layout));
    }
    EXPECT(other.print("[1]", "", SIMD_JSON_PRETTY) == "[\n  1\n]");
    EXPECT(throws([&] { other.print("[1,]"); }, SIMD_JSON_INTERNAL_ERROR, 3));
    EXPECT(throws([&] { other.print("[1]", "/1"); }, SIMD_JSON_NO_VALUE, 0));
    EXPECT(ends_by<std::logic_error>([&] { other.root(); }));
    const size_t depth = 300000;
    simd_json::parser deep(depth);
    const std::string brackets = std::string(depth, '[') + std::string(depth, ']');
    EXPECT(to_string(deep.parse(brackets)) == brackets);
}

static void are_checked() {
    simd_json::parser parser;
    const auto root = parser.parse(R"(["[1,\n]"])");
    try {
        parser.check(root[0].as_string().value());
        EXPECT(false);
    } catch (const simd_json::error &e) {
        EXPECT(e.line() == 2 && e.column() == 1 && e.reason() == "expected a value, found `]`");
    }
    static const char text[] = R"(["\u0041"])"; // which can't be written
    parser.check({text, sizeof text - 1});
    EXPECT(throws([&] { simd_json::parser(0).check("[]"); }, SIMD_JSON_DEPTH_LIMIT_EXCEEDED, 0));
    EXPECT(ends_by<std::logic_error>([&] { parser.root(); }));
    simd_json_place place;
    EXPECT(parser.try_check("[01]", place) == SIMD_JSON_INVALID_NUMBER && place.index == 2);
    simd_json::parser to(std::move(parser));
    EXPECT(parser.try_check("[]", place) == SIMD_JSON_PARSER_CLOSED);
    EXPECT(throws([&] { parser.check("[]"); }, SIMD_JSON_PARSER_CLOSED, 0));
    EXPECT(throws([&] { parser.print("[]"); }, SIMD_JSON_PARSER_CLOSED, 0));
    EXPECT(throws([&] { parser.scan("[]"); }, SIMD_JSON_PARSER_CLOSED, 0) && !parser.pointer(""));
}

// Whether a text is scanned without an error.
static bool scan(simd_json::parser &parser, std::string_view text) {
    try {
        parser.scan(text);
    } catch (const simd_json::error &) {
        return false;
    }
    return true;
}

// Whether a value that is not there is an error, with this reason if it has one.
static bool lacks(simd_json::parser &parser, std::string_view reason) {
    try {
        parser.pointer("/7");
    } catch (const simd_json::error &e) {
        return e.line() == 0 || reason.empty() || e.reason() == reason;
    }
    return false;
}

static void are_found() {
    simd_json::parser parser;
    EXPECT(!parser.pointer(""));
    std::string text = R"({"a":[{"id":7,"name":"\u00e9"}],"wrong":[1,
 x],"long":")" + std::string(100000, 'x') + R"(","~/":2})";
    parser.scan(text);
    text.assign(text.size(), ' '); // it is kept
    EXPECT(parser.pointer("/a/0/id") == 7 && parser.pointer("/a/0/name") == "é");
    EXPECT(parser.pointer("/~0~1") == 2);
    EXPECT(parser.pointer("/long")->as_string()->size() == 100000 && parser.root().as_string());
    EXPECT(parser.pointer("/a").value()[0]["id"] == 7);
    try {
        parser.pointer("/wrong");
        EXPECT(false);
    } catch (const simd_json::error &e) {
        EXPECT(e.index() == 45 && e.line() == 2 && e.column() == 2);
        EXPECT(e.reason() == "expected a value, found `x`");
    }
    EXPECT(ends_by<std::logic_error>([&] { parser.root(); }));
    EXPECT(parser.parse("[\"/a/0\"]")[0] == "/a/0");
    EXPECT(parser.pointer(parser.root()[0].as_string().value()).value()["id"] == 7);
    EXPECT(throws([&] { parser.scan("[\"\xff\"]"); }, SIMD_JSON_INVALID_UTF8, 0));
    EXPECT(!parser.pointer("/a"));
    // What is absent or malformed has the error of the text.
    parser.scan(R"([1, "a", tru, 01, "\q", [1.]])");
    EXPECT(parser.pointer("/0") == 1 && parser.pointer("/1") == "a");
    for (const char *const pointer : {"/2", "/3", "/4", "/5", "/5/0", "/6", "/0/a", "", "/2"})
        EXPECT(throws([&] { parser.pointer(pointer); }, SIMD_JSON_EXPECTED_TRUE, 9));
    // Of a document nothing is wrong, also between blanks; of what is none, whatever follows or lacks.
    const std::string integer = "1" + std::string(40, '0');
    for (const std::string_view right : {"[1]", " \t\r\n[1]\n ", "\"a\"", " 7 ", "null"}) {
        parser.scan(right);
        for (int i = 0; i < 2; i++)
            EXPECT(parser.pointer("") && !parser.pointer("/1") && !parser.pointer("/\xff"));
    }
    for (const char *const wrong : {"[1] x", "[1]]", "[1] [2]", "{} {}", "\"a\" \"b\""})
        EXPECT(scan(parser, wrong) && parser.pointer("") && lacks(parser, "more text after the document"));
    for (const auto &wrong : {std::string("[1"), std::string("[[1]"), std::string("{\"a\":[1,2}"), std::string("[1}"),
                              std::string("[1,]"), "[" + integer + "]", std::string("{\"a\" 1}")})
        EXPECT(scan(parser, wrong) && lacks(parser, "") && lacks(parser, ""));
    for (const char *const wrong : {"nope", integer.c_str(), "1 2", "tru", "]", ",", "\xef\xbb\xbf[1]", "-"})
        EXPECT(!scan(parser, wrong));
}

// What is found stays right until the next scan, in all builds, whatever else the parser does.
static void stay_found() {
    simd_json::parser parser;
    parser.scan(R"({"id":42,"port":8080,"name":"\u00e9","tags":["a",{"b":[]}],"":1.50})");
    const auto port = parser.pointer("/port"), id = parser.pointer("/id"), name = parser.pointer("/name");
    const auto tags = parser.pointer("/tags"), ratio = parser.pointer("/"), root = parser.pointer("");
    EXPECT(!parser.pointer("/absent") && parser.parse("[1,2]")[1] == 2 && parser.print("[3]") == "[3]");
    parser.check("[4]");
    simd_json::parser to(std::move(parser));
    EXPECT(port == 8080 && id == 42 && name == "é" && ratio->as_decimal() == "1.50" && root->size() == 5);
    EXPECT(to_string(*tags) == R"(["a",{"b":[]}])" && root->get("tags") == tags && to.pointer("/name") == name);
    // Of the same pointer it is the same value, which takes no more memory.
    EXPECT(to.pointer("/name")->as_string()->data() == name->as_string()->data());
    to.scan(R"("[\"a\", 7]")");
#ifndef NDEBUG
    EXPECT(are_over([&] { name->kind(); }, [&] { tags->array(); }));
#endif
    to.scan(to.pointer("")->as_string().value()); // a string that it has found
    EXPECT(to.pointer("/1") == 7 && !to.pointer("/2"));
}

static bool are(const std::vector<std::optional<simd_json::element>> &found, std::vector<std::string> wanted) {
    std::vector<std::string> texts;
    for (const auto &value : found)
        texts.push_back(value ? to_string(*value) : "");
    return texts == wanted;
}

static void are_fields() {
    const std::string line = R"({"status":404,"path":"/a","quoted":"\"\u00e9","tags":["x",{"y":[]}],"ratio":-2.50,)"
                             R"("wide":18446744073709551616,"low":-7,"on":true,"none":null,"status":1,"user":{"id":7,"n":"\n"}})";
    simd_json::fields wanted({"/status", "/path", "/quoted", "/tags", "/ratio", "/wide", "/low", "/on", "/none", "/absent",
                              "/user/id", "/tags/1/y", "/user", "/quoted", "/path", "/tags/2"});
    const auto &found = wanted.get(line);
    EXPECT(found.size() == 16 && found[0] == 404 && found[1] == "/a" && found[2] == "\"é" && found[4]->as_decimal() == "-2.50");
    EXPECT(are(found, {"404", R"("/a")", R"("\"é")", R"(["x",{"y":[]}])", "-2.50", "18446744073709551616", "-7", "true", "null",
                       "", "7", "[]", R"({"id":7,"n":"\n"})", R"("\"é")", R"("/a")", ""}));
    EXPECT(found[5]->as_wide_integer() && found[6]->as_int64() == -7 && found[7]->as_bool() == true && found[8]->is_null());
    EXPECT(found[3]->array().size() == 2 && found[3]->pointer("/1/y")->size() == 0 && found[12]->get("n") == "\n");
    // A string without escapes is in the line, which may be of any kind.
    EXPECT(found[1]->as_string()->data() == line.data() + line.find("/a") && found[1] == found[14]);
    const auto first = found[0], third = found[3];
    simd_json::fields to(std::move(wanted));
    EXPECT(first == 404 && third->get(0) == "x");
    EXPECT(throws([&] { wanted.get(line); }, SIMD_JSON_PARSER_CLOSED, 0));
    simd_json::fields brief({"/0"});
    const auto newline = brief.get("[\"\\n\"]")[0];
    simd_json::fields moved_to(std::move(brief));
    EXPECT(newline == "\n" && moved_to.get("[7]")[0] == 7);
    EXPECT(are(to.get("{\"status\":[]}"), {"[]", "", "", "", "", "", "", "", "", "", "", "", "", "", "", ""}));
#ifndef NDEBUG
    EXPECT(are_over([&] { first->kind(); }, [&] { third->array(); }));
#endif
    // A string that was found is the next text, also where the parser has decoded it.
    simd_json::fields nested({"/a", "/b"});
    std::string text = R"({"a":"{\"a\":\"{\\\"a\\\":\\\"\\\\u0041\\\",\\\"b\\\":[1]}\",\"b\":2}","b":0})";
    for (int depth = 0; depth < 2; depth++) {
        const auto &next = nested.get(depth == 0 ? std::string_view(text) : nested.get(text)[0]->as_string().value());
        EXPECT(next[1] == 2 * depth && next[0]->is_string());
        if (depth == 1)
            EXPECT(are(nested.get(next[0]->as_string().value()), {"\"A\"", "[1]"}));
    }
}

static void are_hostile_fields() {
    // None, many, equal ones, and one in another.
    simd_json::fields none({});
    EXPECT(none.get("[1]").size() == 0 && none.get("[1]").begin() == none.get("[1]").end());
    EXPECT(throws([&] { none.get("[\"\xff\"]"); }, SIMD_JSON_INVALID_UTF8, 0));
    std::vector<std::string> names;
    std::string text = "[", inner;
    for (int i = 0; i < 1000; i++) {
        names.push_back(i % 10 == 9 ? "/7" : "/" + std::to_string(999 - i));
        text += (i ? "," : "") + (i % 3 ? std::to_string(i) : i % 2 ? "\"\\n" + std::to_string(i) + '"' : "[" + std::to_string(i) + "]");
    }
    text += ']';
    simd_json::fields many(names);
    simd_json::parser parser;
    const auto root = parser.parse(text);
    for (int round = 0; round < 3; round++) {
        const auto &found = many.get(text);
        for (size_t i = 0; i < names.size(); i++)
            EXPECT(found[i] && found[i] == root.pointer(names[i]));
    }
    // The greatest depth, at the root and in it.
    for (const size_t depth : {1, 3}) {
        simd_json::fields shallow({"", "/0", "/0/0"}, depth), alone({""}, depth);
        const std::string deep = std::string(depth, '[') + std::string(depth, ']');
        EXPECT(alone.get(deep)[0]->is_array());
        for (const auto of : {&shallow, &alone})
            EXPECT(throws([&] { of->get("[[[[]]]]"); }, SIMD_JSON_DEPTH_LIMIT_EXCEEDED, depth));
    }
    simd_json::fields deepest({""}, SIZE_MAX);
    EXPECT(deepest.get("[[]]")[0]->size() == 1);
    // Pointers that are none.
    for (const std::string_view wrong : {"a", "/~", "/a~2", " /a"})
        EXPECT(ends_by<std::invalid_argument>([&] { simd_json::fields({"/a", wrong}); }));
    EXPECT(ends_by<std::invalid_argument>([] { simd_json::fields({"/\xff"}); }, "simd_json: a JSON Pointer that is not UTF-8"));
    // What is absent or malformed has the error of the text; what is found may be in one that is no document.
    simd_json::fields wanted({"/a", "/b"});
    for (const std::string_view wrong : {R"({"a":1,"b":tru})", R"({"a":[1,,2],"b":1})", R"({"a":"\q","b":1})", R"({"a":1)", R"({"a":1} x)",
                                         "", "nope", "[1,]", "{\"a\":\"\n\"}", R"({"a":1,"b":[1})"}) {
        simd_json_place place;
        const int32_t status = simd_json_check(wrong.data(), wrong.size(), 1024, &place);
        try {
            wanted.get(wrong);
            EXPECT(false);
        } catch (const simd_json::error &e) {
            EXPECT(status != SIMD_JSON_OK && e.status() == status && e.index() == place.index && e.line() > 0 && !e.reason().empty());
        }
    }
    EXPECT(are(wanted.get(R"({"a":1,"b":"\n"} x)"), {"1", R"("\n")"}) && are(wanted.get("7"), {"", ""}));
    // The line is changed: numbers and what was parsed stay, other texts are unspecified, but in it.
    std::string line = R"({"a":"plain","b":[1,"x"]})";
    const auto &found = wanted.get(line);
    line.replace(0, line.size(), line.size(), '\\');
    EXPECT(found[0]->as_string()->size() == 5 && to_string(*found[1]) == R"([1,"x"])");
}

static void are_null_by_default() {
    const simd_json::element none;
    EXPECT(none.is_null() && !none.as_string() && !none.as_double() && none == simd_json::element());
    EXPECT(none.pointer("")->is_null() && !none.pointer("/a") && !none.get("a") && !none.get(0));
    EXPECT(simd_json::array_view().begin() == simd_json::array_view().end());
}

// Before clang 16 libstdc++'s views are not compiled, of vectors neither.
#if defined(__cpp_lib_ranges) && (!defined(__clang__) || __clang_major__ >= 16)
static_assert(
    std::forward_iterator<simd_json::array_view::
                              iterator> && std::forward_iterator<simd_json::object_view::iterator>);
static_assert(std::ranges::view<
                  simd_json::array_view> && std::ranges::borrowed_range<simd_json::object_view>);
static_assert(std::ranges::sized_range<simd_json::array_view>);

static void are_ranges() {
    simd_json::parser parser;
    const auto root =
        parser.parse(R"([{"id":1,"on":true},{"id":2,"on":false},{"id":3,"on":true}])");
    int64_t sum = 0;
    for (const auto id :
         root.array() | std::views::filter([](auto e) { return e["on"].as_bool().value(); })
             | std::views::transform([](auto e) { return e["id"].as_int64().value(); }))
        sum = 10 * sum + id;
    EXPECT(sum == 13);
    const auto has_two = [](const auto &member) { return member.second.as_int64() == 2; };
    EXPECT(std::ranges::count_if(root[1].object(), has_two) == 1);
    EXPECT(std::ranges::find_if(root[1].object(), has_two) == root[1].object().begin());
    EXPECT(std::ranges::distance(root.array() | std::views::drop(1)) == 2);
    const auto ids = parser.parse("[1,2,3]");
    EXPECT(std::ranges::find(ids.array(), ids[1]) == ++ids.array().begin() && std::ranges::count(ids.array(), ids[2]) == 1);
    EXPECT(*std::ranges::find(ids.array(), 3, &simd_json::element::as_int64) == 3);
}
#else
static void are_ranges() {}
#endif

int main() {
    end_with_their_parse();
    have_no_document();
    moved();
    parse_their_own_string();
    name_their_place();
    take_each_index();
    keep_wide_integers();
    compare_with_scalars();
    compare_with_each_other();
    are_read_as_types();
    are_malformed_pointers();
    are_printed();
    are_checked();
    are_found();
    stay_found();
    are_fields();
    are_hostile_fields();
    are_null_by_default();
    are_ranges();
    simd_json::parser parser;
    const auto root = parser.parse(R"({"a":[1,-2,2.5,1e400,-1e-400,"\u00e9",null,true],"b":{"c":18446744073709551615},"a":0})");
    const auto a = root["a"];
    EXPECT(a.array().size() == 8 && root.object().size() == 3);
    EXPECT(a[0].as_int64() == 1 && a[0].as_uint64() == 1u && a[0].as_double() == 1.0);
    EXPECT(a[1].as_int64() == -2 && !a[1].as_uint64() && a[1].as_double() == -2.0);
    EXPECT(a[2].as_double() == 2.5 && a[2].as_decimal() == "2.5" && !a[2].as_int64());
    EXPECT(std::isinf(a[3].as_double().value()) && a[4].as_double() == 0.0);
    EXPECT(a[5].as_string() == "é" && a[6].is_null() && a[7].as_bool() == true && !a.get(8));
    EXPECT(root["b"]["c"].as_uint64() == UINT64_MAX && !root["b"]["c"].as_int64());
    EXPECT(root.pointer("/b/c")->as_uint64() == UINT64_MAX && root.pointer("")->is_object() && a.pointer("/2")->as_double() == 2.5);
    EXPECT(a.pointer("/5")->as_string() == "é" && !root.pointer("/b/d") && !a.pointer("/8") && !a[0].pointer("/0"));
    EXPECT(!root.get("d") && !a.get("a") && !root.get(0));
    std::string keys;
    for (const auto &[key, value] : root.object())
        keys += std::string(key) + std::to_string(value.kind());
    EXPECT(keys == "a8b9a3");
    size_t count = 0;
    for (const auto value : a.array())
        count += value.kind() != SIMD_JSON_OBJECT;
    EXPECT(count == 8);
    const auto members = root.object(), none = simd_json::object_view();
    keys.clear();
    for (auto member = members.begin(); member != members.end(); ++member)
        keys += std::string(member->first) + std::to_string(member->second.kind());
    EXPECT(keys == "a8b9a3" && a.array().begin()->as_int64() == 1 && none.begin() == none.end());
    EXPECT(std::count_if(members.begin(), members.end(), [](const auto &member) { return member.first == "a"; }) == 2);
    bool caught = false;
    try {
        root["d"];
    } catch (const std::out_of_range &) {
        caught = true;
    }
    EXPECT(caught);
    EXPECT(throws([&] { parser.parse("[1,]"); }, SIMD_JSON_INTERNAL_ERROR, 3));
    EXPECT(throws([&] { parser.parse(""); }, SIMD_JSON_EOF, 0));
    simd_json::parser shallow(1);
    EXPECT(throws([&] { shallow.parse("[[]]"); }, SIMD_JSON_DEPTH_LIMIT_EXCEEDED, 1));
    EXPECT(parser.parse("\"again\"").as_string() == "again");
    const double wide = parser.parse("-170141183460469231731687303715884105728").as_double().value();
    EXPECT(wide == -std::ldexp(1.0, 127));
    simd_json_place place;
    EXPECT(parser.try_parse("[]", place) == SIMD_JSON_OK && parser.root().is_array());
    EXPECT(parser.try_parse("[01]", place) == SIMD_JSON_INVALID_NUMBER && place.index == 2 && place.character == '1');
    return failures != 0;
}
