// With CASE above 0 it must not compile: an element of a parser, of a text or of a document that is
// gone at once, an index that is none, and a string for a list of them. tests/bindings.sh says what the message names.
#include <cstdio>
#include <simd_json.hpp>
#include <vector>

simd_json_document lent();
const simd_json_document lent_as_const();

using simd_json::element;

int main() {
    simd_json::parser parser;
    const simd_json_document document{};
    const auto root = parser.parse("[1]");
    std::string text("[1]");
    struct { simd_json::parser parser; } service{};
    simd_json::fields fields({"/a"}), of_strings(std::vector<std::string>{"/a"});
    element (simd_json::parser::*const parse_in_place)(std::string &) & = &simd_json::parser::parse_in_place;
#if CASE == 0
    const simd_json::element of(document);
    for (const auto element : parser.parse("[1]").array())
        std::printf("%u", element.kind());
    return static_cast<int>(root[0].kind() + parser.root().kind()
                            + (parser.*parse_in_place)(text).kind() + fields.get(text).size()
                            + fields.get("[1]").size() + of_strings.get(std::as_const(text)).size()
                            + service.parser.parse("[1]").get(0)->kind());
#elif CASE == 1
    const auto element = simd_json::parser().parse("[1]");
#elif CASE == 2
    for (const auto element : simd_json::parser().parse("[1]").array())
        std::printf("%u", element.kind());
#elif CASE == 3
    const auto element = std::move(parser).parse("[1]");
#elif CASE == 4
    const auto element = simd_json::parser().root();
#elif CASE == 5
    const auto element = static_cast<const simd_json::parser &&>(parser).root();
#elif CASE == 6
    const simd_json::element element(lent());
#elif CASE == 7
    const simd_json::element element(lent_as_const());
#elif CASE == 8
    const auto element = root[true];
#elif CASE == 9
    const auto element = simd_json::parser().pointer("/0");
#elif CASE == 10
    return root == std::vector<int>();
#elif CASE == 11
    const auto element = simd_json::parser().parse(text);
#elif CASE == 12
    const auto element = simd_json::parser().parse(std::string("[1]"));
#elif CASE == 13
    const auto element = parser.parse_in_place(std::string("[1]"));
#elif CASE == 14
    const auto element = parser.parse_in_place(std::move(text));
#elif CASE == 15
    const auto element = parser.parse_in_place(std::as_const(text));
#elif CASE == 16
    const auto element = root.get(true);
#elif CASE == 17
    const auto element = root.get(0.5);
#elif CASE == 18
    const simd_json::parser shallow = 1;
#elif CASE == 19
    const auto element = simd_json::parser().parse_in_place(text);
#elif CASE == 20
    const auto element = root[nullptr];
#elif CASE == 21
    const auto element = root[static_cast<__int128>(1)];
#elif CASE == 22
    const auto element = root.get(static_cast<unsigned __int128>(1) << 64);
#elif CASE == 23
    const auto &found = simd_json::fields({"/a"}).get("[1]");
#elif CASE == 24
    const auto &found = fields.get(std::string("[1]"));
#elif CASE == 25
    simd_json::fields one("/a");
#endif
}
