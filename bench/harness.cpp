// Times parsers over the same texts, in one process and in turn. run.sh builds and runs it:
//   harness ROUNDS TEXT.. -- CONTENDER..
// A sample reads copies of one text, of 1 MiB together or of SAMPLE bytes, where that is in the environment.
// A text whose name ends with .jsonl is lines of one length: each is read by itself, or all by a parser of streams.
// A contender is simdjson, stage1 (simdjson's), rapidjson, yajl, serde_json=LIBRARY.so, or ours: parse-LEVEL=LIBRARY.so,
// scan-LEVEL=LIBRARY.so, c-LEVEL=LIBRARY.so (the library for C), for lines many (simdjson's stream) and stream=LIBRARY.so
// (serde_json's), reject-LEVEL=LIBRARY.so, which is timed at texts that it rejects, and at no other, TASK:CONTENDER, where
// TASK is a number of tasks.hpp and CONTENDER is simdjson, rapidjson or tasks-LEVEL=LIBRARY.so, or FORM:CONTENDER, where FORM
// is lines, tweets or map and CONTENDER serde_json=LIBRARY.so or typed-LEVEL=LIBRARY.so (ours and the toolchain's serde_json).
// Writes a line for each text and contender: its path, its bytes, what is timed, the contender, and the nanoseconds of a
// byte at the fastest round, or `-` where the text was rejected. Libraries of one LEVEL that differ in where the code lies are
// contenders of one name, with a line each. A contender that is not installed is named on standard error. Those who count,
// count the same, or nothing is printed: that is the test that each did the work.
#include <dlfcn.h>
#include <malloc.h>
#include <simd_json.h>

#include "tasks.hpp"

#include <algorithm>
#include <cstdio>
#include <cstdlib>
#include <cstring>
#include <ctime>
#include <fstream>
#include <functional>
#include <iterator>
#include <memory>
#include <string>
#include <vector>

#if __has_include(<yajl/yajl_parse.h>)
#include <yajl/yajl_parse.h>
#include <yajl/yajl_version.h>
#endif

[[noreturn]] static void stop(const std::string &why) {
    fprintf(stderr, "harness: %s\n", why.c_str());
    exit(1);
}

static size_t sample_bytes() {
    const char *asked = getenv("SAMPLE");
    return asked ? strtoull(asked, nullptr, 10) : 1 << 20;
}

// As many copies of a text as one sample reads, each with 64 zero bytes behind it, or the lines of a text, one after the other.
// Parsers may write to them.
class Copies {
  public:
    explicit Copies(const std::string &text)
        : text(text), stride((text.size() + 64 + 63) / 64 * 64),
          count(std::clamp<size_t>(sample_bytes() / text.size(), 3, 4096)), one(text.size()), room(stride * count + 128) {
        align();
    }
    Copies(const std::string &lines, size_t line)
        : text(lines), stride(line), count(lines.size() / line), one(line - 1), room(lines.size() + 128) {
        for (size_t end = one; end < lines.size(); end += line)
            if (lines.size() % line || lines[end] != '\n') stop("the lines are not of one length");
        align();
    }
    void renew() {
        for (size_t i = 0; i < count * stride; i += std::max(stride, text.size())) {
            memcpy(first + i, text.data(), text.size());
            memset(first + i + text.size(), 0, 64);
        }
    }
    uint8_t *at(size_t i) const { return first + i * stride; }
    size_t len() const { return one; }

    const std::string &text;
    const size_t stride, count;

  private:
    void align() {
        size_t past = reinterpret_cast<uintptr_t>(room.data()) % 64;
        first = room.data() + (64 - past) % 64;
    }
    const size_t one;
    std::vector<uint8_t> room;
    uint8_t *first;
};

// Reads the first `count` copies. Returns what it counted in them (0: it does not count), negative where one was rejected.
using Read = std::function<int64_t(const Copies &, size_t)>;

static const char *const PARTS[] = {"parse", "scan", "task"};

struct Contender {
    enum Part { Parse, Scan, Asked } part;
    std::string name;
    Read read;
    // Makes its buffers at the first copy and keeps them, so the time of one copy is taken off that of all.
    bool makes_buffers_once = false;
    double fastest_one = 1e300, fastest_all = 1e300;
    bool has_rejected = false;

    double ns_per_byte(const Copies &c) const {
        double bytes = double(c.len());
        if (makes_buffers_once) return (fastest_all - fastest_one) / (bytes * double(c.count - 1));
        return fastest_all / (bytes * double(c.count));
    }
};

// Reads one copy after another with a parser of single texts.
template <class One> static Read each(One one) {
    return [one](const Copies &c, size_t count) {
        int64_t sum = 0;
        for (size_t i = 0; i < count; i++) {
            int64_t counted = one(c.at(i), c.len());
            if (counted < 0) return counted;
            sum += counted;
        }
        return sum;
    };
}

static void add_simdjson([[maybe_unused]] std::vector<Contender> &all, [[maybe_unused]] Contender::Part part) {
#ifdef SIMDJSON_VERSION
    for (auto [kernel, level] : {std::pair("westmere", "v2"), std::pair("haswell", "v3")}) {
        auto *found = simdjson::get_available_implementations()[kernel];
        if (!found || !found->supported_by_runtime_system()) continue;
        simdjson::get_active_implementation() = found;
        auto parser = std::make_shared<simdjson::dom::parser>();
        if (parser->allocate(1 << 20)) stop("simdjson has no memory");
        if (part == Contender::Parse)
            all.push_back({part, std::string("simdjson DOM, ") + level, each([parser](uint8_t *text, size_t len) -> int64_t {
                               return parser->parse(text, len, false).error() ? -1 : 0;
                           })});
        else
            all.push_back({part, std::string("simdjson stage 1, ") + level, each([parser](uint8_t *text, size_t len) -> int64_t {
                               if (parser->capacity() < len && parser->allocate(len)) return -1;
                               auto &stages = *parser->implementation;
                               if (stages.stage1(text, len, simdjson::stage1_mode::regular)) return -1;
                               return stages.n_structural_indexes;
                           })});
    }
#endif
}

// Without a second thread.
static void add_many([[maybe_unused]] std::vector<Contender> &all) {
#ifdef SIMDJSON_VERSION
    for (auto [kernel, level] : {std::pair("westmere", "v2"), std::pair("haswell", "v3")}) {
        auto *found = simdjson::get_available_implementations()[kernel];
        if (!found || !found->supported_by_runtime_system()) continue;
        simdjson::get_active_implementation() = found;
        auto parser = std::make_shared<simdjson::dom::parser>();
#ifdef SIMDJSON_THREADS_ENABLED
        parser->threaded = false;
#endif
        all.push_back({Contender::Parse, std::string("simdjson parse_many, ") + level, [parser](const Copies &c, size_t count) -> int64_t {
                           simdjson::dom::document_stream documents;
                           if (parser->parse_many(c.at(0), c.stride * count).get(documents)) return -1;
                           size_t read = 0;
                           for (auto document : documents) {
                               if (document.error()) return -1;
                               read++;
                           }
                           return read == count ? 0 : -1;
                       }});
    }
#endif
}

static void add_rapidjson([[maybe_unused]] std::vector<Contender> &all) {
#ifdef RAPIDJSON_VERSION_STRING
    all.push_back({Contender::Parse, "rapidjson in place", each([](uint8_t *text, size_t) -> int64_t {
                       rapidjson::Document document;
                       document.ParseInsitu<rapidjson::kParseValidateEncodingFlag>(reinterpret_cast<char *>(text));
                       return document.HasParseError() ? -1 : 0;
                   })});
#endif
}

#ifdef YAJL_MAJOR
// One more value or key, that is, one more node.
template <class... Arguments> static int on_event(void *nodes, Arguments...) {
    return ++*static_cast<int64_t *>(nodes), 1;
}
static int on_end(void *) { return 1; }
#endif

static void add_yajl([[maybe_unused]] std::vector<Contender> &all) {
#ifdef YAJL_MAJOR
    static yajl_callbacks events = {on_event, on_event, on_event, on_event, nullptr, on_event, on_event, on_event, on_end, on_event, on_end};
    all.push_back({Contender::Parse, "yajl, events alone", each([](uint8_t *text, size_t len) -> int64_t {
                       int64_t nodes = 0;
                       yajl_handle parser = yajl_alloc(&events, nullptr, &nodes);
                       bool is_read = yajl_parse(parser, text, len) == yajl_status_ok && yajl_complete_parse(parser) == yajl_status_ok;
                       yajl_free(parser);
                       return is_read ? nodes : -1;
                   })});
#endif
}

template <class Function> static Function *symbol(const std::string &path, const char *name) {
    void *library = dlopen(path.c_str(), RTLD_NOW | RTLD_LOCAL);
    void *found = library ? dlsym(library, name) : nullptr;
    if (!found) stop(dlerror());
    return reinterpret_cast<Function *>(found);
}

static void add_serde_json(std::vector<Contender> &all, const std::string &path) {
    all.push_back({Contender::Parse, "serde_json Value", each(symbol<int64_t(const uint8_t *, size_t)>(path, "serde_json_value"))});
}

static void add_stream(std::vector<Contender> &all, const std::string &path) {
    auto *read = symbol<int64_t(const uint8_t *, size_t)>(path, "serde_json_stream");
    all.push_back({Contender::Parse, "serde_json stream", [read](const Copies &c, size_t count) { return read(c.at(0), c.stride * count); }});
}

// Ours over many texts: at the first it makes buffers, which it keeps.
static Read all_by(const std::string &path, const char *name) {
    auto *read = symbol<int64_t(uint8_t *, size_t, size_t, size_t)>(path, name);
    return [read](const Copies &c, size_t count) { return read(c.at(0), c.stride * count, c.stride, c.len()); };
}

static void add_parse(std::vector<Contender> &all, const std::string &level, const std::string &path) {
    all.push_back({Contender::Parse, "simd_json kept, " + level, all_by(path, "simd_json_bench_parse_all"), true});
    auto *parse = symbol<int64_t(uint8_t *, size_t)>(path, "simd_json_bench_parse");
    all.push_back({Contender::Parse, "simd_json fresh, " + level, each(parse)});
}

static void add_reject(std::vector<Contender> &all, const std::string &level, const std::string &path) {
    auto *parse = symbol<int64_t(uint8_t *, size_t)>(path, "simd_json_bench_parse");
    all.push_back({Contender::Parse, "simd_json rejecting, " + level, each([parse](uint8_t *text, size_t len) -> int64_t {
                       return parse(text, len) == -1 ? 0 : -1;
                   })});
}

// The library for C, which makes its buffers at each call, and its parser, which keeps them and is timed as ours in Rust
// is, without the first copy.
static void add_c(std::vector<Contender> &all, const std::string &level, const std::string &path) {
    auto add = [&](const char *name, auto one, bool is_kept) {
        all.push_back({Contender::Parse, "simd_json C " + (name + (", " + level)), each(one), is_kept});
    };

    auto *check = symbol<decltype(simd_json_check)>(path, "simd_json_check");
    add("check", [check](uint8_t *text, size_t len) -> int64_t {
        simd_json_place place;
        return check(text, len, 1024, &place) == SIMD_JSON_OK ? 0 : -1;
    }, false);

    auto *close = symbol<decltype(simd_json_close)>(path, "simd_json_close");
    std::shared_ptr<simd_json_parser> parser(new simd_json_parser{}, [close](simd_json_parser *open) { close(open), delete open; });
    if (symbol<decltype(simd_json_open)>(path, "simd_json_open")(parser.get(), 1024)) stop("the parser for C has no memory");
    auto *kept_check = symbol<decltype(simd_json_parser_check)>(path, "simd_json_parser_check");
    add("kept check", [kept_check, parser](uint8_t *text, size_t len) -> int64_t {
        simd_json_place place;
        return kept_check(parser.get(), text, len, &place) == SIMD_JSON_OK ? 0 : -1;
    }, true);
    auto *parse = symbol<decltype(simd_json_parser_parse)>(path, "simd_json_parser_parse");
    add("kept parse", [parse, parser](uint8_t *text, size_t len) -> int64_t {
        simd_json_document document;
        simd_json_place place;
        return parse(parser.get(), text, len, &document, &place) == SIMD_JSON_OK ? int64_t(document.nodes_len) : -1;
    }, true);
}

static void add_scan(std::vector<Contender> &all, const std::string &level, const std::string &path) {
    all.push_back({Contender::Scan, "simd_json scan, " + level, all_by(path, "simd_json_bench_scan_all"), true});
}

#include "asked.hpp"

static void add(std::vector<Contender> &all, const std::string &word) {
    size_t equals = std::min(word.find('='), word.size());
    std::string name = word.substr(0, equals), path = word.substr(std::min(equals + 1, word.size()));
    size_t colon = name.find(':');
    if (isdigit(word[0])) add_task(all, Task(word[0] - '0'), name.substr(2), path);
    else if (colon < name.size()) add_typed(all, name.substr(0, colon), name.substr(colon + 1), path);
    else if (name == "simdjson") add_simdjson(all, Contender::Parse);
    else if (name == "stage1") add_simdjson(all, Contender::Scan);
    else if (name == "many") add_many(all);
    else if (name == "stream") add_stream(all, path);
    else if (name == "rapidjson") add_rapidjson(all);
    else if (name == "yajl") add_yajl(all);
    else if (name == "serde_json") add_serde_json(all, path);
    else if (name.rfind("parse-", 0) == 0) add_parse(all, name.substr(6), path);
    else if (name.rfind("reject-", 0) == 0) add_reject(all, name.substr(7), path);
    else if (name.rfind("c-", 0) == 0) add_c(all, name.substr(2), path);
    else if (name.rfind("scan-", 0) == 0) add_scan(all, name.substr(5), path);
    else stop("no contender " + word);
}

// Those of the words that are there. They are made for each text, so that none keeps the memory of a large one.
static std::vector<Contender> contenders(const std::vector<std::string> &words) {
    static std::vector<std::string> absent;
    std::vector<Contender> all;
    for (auto &word : words) {
        size_t before = all.size();
        add(all, word);
        if (all.size() > before || std::find(absent.begin(), absent.end(), word) != absent.end()) continue;
        fprintf(stderr, "bench: left out: %s, which is not installed\n", word.c_str());
        absent.push_back(word);
    }
    return all;
}

// Processor time of this thread, which counts no time that other programs took.
static double clock_now() {
    timespec now;
    clock_gettime(CLOCK_THREAD_CPUTIME_ID, &now);
    return double(now.tv_sec) * 1e9 + double(now.tv_nsec);
}

// One sample: `count` copies, made outside the clock.
static double nanoseconds(Contender &c, Copies &copies, size_t count, int64_t &counted) {
    copies.renew();
    double start = clock_now();
    counted = c.read(copies, count);
    return clock_now() - start;
}

static void sample(Contender &c, Copies &copies, int64_t (&nodes_or_positions)[3]) {
    int64_t counted = 0;
    if (c.makes_buffers_once) {
        // Once outside the count, so that the memory that all copies find warm is warm for the one too.
        nanoseconds(c, copies, 1, counted);
        c.fastest_one = std::min(c.fastest_one, nanoseconds(c, copies, 1, counted));
    }
    if (counted >= 0) c.fastest_all = std::min(c.fastest_all, nanoseconds(c, copies, copies.count, counted));
    c.has_rejected = counted < 0;
    int64_t &before = nodes_or_positions[c.part];
    if (counted > 0 && before > 0 && counted != before) stop(c.name + " counts otherwise than those before it");
    if (counted > 0) before = counted;
}

static void race(const std::string &path, size_t rounds, const std::vector<std::string> &words) {
    std::ifstream in(path, std::ios::binary);
    std::string text((std::istreambuf_iterator<char>(in)), {});
    if (text.empty()) stop("no text in " + path);
    bool are_lines = path.ends_with(".jsonl");
    Copies copies = are_lines ? Copies(text, text.find('\n') + 1) : Copies(text);
    auto all = contenders(words);
    int64_t counts[3] = {0, 0, 0};
    // Fewer rounds over the largest texts. The first warms up: its times are the slowest, and the fastest counts.
    rounds = std::clamp<size_t>((192 << 20) / (copies.count * copies.len()), std::min<size_t>(rounds, 2), rounds);
    for (size_t round = 0; round <= rounds; round++)
        for (size_t i = 0; i < all.size(); i++) {
            Contender &next = all[(i + round) % all.size()];
            if (!next.has_rejected) sample(next, copies, counts);
        }
    for (auto &c : all) {
        printf("%s\t%zu\t%s\t%s\t", path.c_str(), text.size(), PARTS[c.part], c.name.c_str());
        if (c.has_rejected) printf("-\n");
        else printf("%.5f\n", c.ns_per_byte(copies));
    }
    fflush(stdout);
}

int main(int argc, char **argv) {
    // Freed memory stays with the process, so nobody pays for new pages at each text.
    if (!mallopt(M_MMAP_MAX, 0) || !mallopt(M_TRIM_THRESHOLD, -1) || !mallopt(M_TOP_PAD, 64 << 20)) stop("malloc cannot be set");
    std::vector<std::string> words(argv + std::min(argc, 2), argv + argc);
    auto dashes = std::find(words.begin(), words.end(), "--");
    if (dashes == words.end()) stop("ROUNDS TEXT.. -- CONTENDER..");
    std::vector<std::string> named(dashes + 1, words.end());
    for (auto path = words.begin(); path != dashes; ++path) race(*path, std::max(atoi(argv[1]), 1), named);
}
