// log.cpp: prints status and path of each line of a log, and where and why a line is no document.
// c++ -std=c++17 log.cpp $(pkg-config --cflags --libs simd_json) -o log && ./log log.jsonl
#include <fstream>
#include <iostream>
#include <simd_json.hpp>

int main(int argc, char **argv) {
    std::ifstream file(argc == 2 ? argv[1] : "");
    if (!file) {
        std::cerr << "log FILE, which can be read\n";
        return 2;
    }
    simd_json::parser parser;
    std::string line;
    bool is_right = true;
    for (size_t number = 1; std::getline(file, line); number++) {
        try {
            const auto root = parser.parse(line);
            const auto status = root["status"].as<unsigned>(); // both before anything is printed
            const auto path = root["path"].as<std::string_view>();
            std::cout << status << ' ' << path << '\n';
            continue;
        } catch (const simd_json::error &e) {
            std::cout << argv[1] << ':' << number << ':' << e.column() << ": " << e.reason() << '\n';
        } catch (const std::exception &) { // there is no such member, or it is of another kind
            std::cout << argv[1] << ':' << number << ": no status, or no path\n";
        }
        is_right = false;
    }
    return !is_right;
}
