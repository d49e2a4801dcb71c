// The contenders that read values: tasks, and typed reading. harness.cpp has what they are made of, and includes this.
#pragma once

// A task's sum as it is compared: negative where there is none.
static int64_t compared(uint64_t sum) { return sum == NONE ? -1 : int64_t(sum >> 2); }

// Each makes its buffers at the first text. `over` reads the first `count` copies.
static void add_asked(std::vector<Contender> &all, const std::string &name, std::function<uint64_t(const Copies &, size_t)> over) {
    all.push_back({Contender::Asked, name, [over](const Copies &c, size_t count) -> int64_t {
                       try {
                           return compared(over(c, count));
                       } catch (...) {
                           return -1;
                       }
                   }, true});
}

static void add_asked(std::vector<Contender> &all, Task task, const std::string &name, std::function<uint64_t(const Copies &, size_t)> over) {
    add_asked(all, TASKS[task] + (": " + name), over);
}

template <class One> static void add_asked_of_each(std::vector<Contender> &all, Task task, const std::string &name, One one) {
    add_asked(all, task, name, [one](const Copies &c, size_t count) {
        uint64_t sum = 0;
        for (size_t i = 0; i < count; i++) {
            uint64_t next = one(c.at(i), c.len());
            if (next == NONE) return NONE;
            sum += next;
        }
        return sum;
    });
}

#ifdef SIMDJSON_VERSION
// The lines of a stream, without a second thread.
template <class Documents> static uint64_t over_lines(Documents &documents, size_t count, auto line) {
    uint64_t sum = 0;
    size_t read = 0;
    for (auto document : documents) sum += line(document.value()), read++;
    return read == count ? sum : NONE;
}

static void add_simdjson_tasks(std::vector<Contender> &all, Task task) {
    using namespace simdjson;
    // That of this program: the library's own is another.
    get_active_implementation() = get_available_implementations()[SIMDJSON_STRINGIFY(SIMDJSON_BUILTIN_IMPLEMENTATION)];
    auto parser = std::make_shared<ondemand::parser>();
    auto room = std::make_shared<std::vector<uint8_t>>();
    auto dom = std::make_shared<dom::parser>();
#ifdef SIMDJSON_THREADS_ENABLED
    parser->threaded = dom->threaded = false;
#endif
    if (task == LogLines) {
        add_asked(all, task, "simdjson On-Demand", [parser](const Copies &c, size_t count) {
            ondemand::document_stream documents = parser->iterate_many(c.at(0), c.stride * count);
            return over_lines(documents, count, on_demand::line);
        });
        add_asked(all, task, "simdjson DOM", [dom](const Copies &c, size_t count) {
            dom::document_stream documents = dom->parse_many(c.at(0), c.stride * count);
            return over_lines(documents, count, [](dom::element root) { return Tree<Dom>::answer(LogLines, root); });
        });
        return;
    }
    add_asked_of_each(all, task, "simdjson On-Demand", [task, parser, room](uint8_t *text, size_t len) {
        ondemand::document root = parser->iterate(padded_string_view(text, len, len + SIMDJSON_PADDING));
        return on_demand::answer(task, root, *parser, *room);
    });
    if (task != Literals)
        add_asked_of_each(all, task, "simdjson DOM", [task, dom](uint8_t *text, size_t len) -> uint64_t {
            return Tree<Dom>::answer(task, dom->parse(text, len, false));
        });
}
#endif

#ifdef RAPIDJSON_VERSION_STRING
template <unsigned FLAGS> static void add_rapidjson_task(std::vector<Contender> &all, Task task) {
    // It reads up to a zero byte, so a line's end is made one.
    add_asked_of_each(all, task, "rapidjson in place", [task](uint8_t *text, size_t len) {
        text[len] = 0;
        rapidjson::Document root;
        root.ParseInsitu<FLAGS | rapidjson::kParseValidateEncodingFlag>(reinterpret_cast<char *>(text));
        return root.HasParseError() ? NONE : Tree<Rapid>::answer(task, Rapid::Value(root));
    });
}
#endif

static void add_our_tasks(std::vector<Contender> &all, Task task, const std::string &level, const std::string &path) {
    bool is_query = task == Amounts || task == AmountsBeneath;
    for (auto way : is_query ? std::vector{"tape", "path"} : std::vector{"tape", "find", "check"}) {
        std::string name = std::string("simd_json_bench_") + way, shown = std::string("simd_json ") + way + ", " + level;
        if (task == LogLines) {
            auto *over = symbol<uint64_t(uint8_t *, size_t)>(path, (name + "_lines").c_str());
            add_asked(all, task, shown, [over](const Copies &c, size_t count) { return over(c.at(0), c.stride * count); });
        } else {
            auto *over = symbol<uint64_t(uint8_t *, size_t, size_t, size_t, uint32_t)>(path, name.c_str());
            add_asked(all, task, shown, [over, task](const Copies &c, size_t count) { return over(c.at(0), c.stride * count, c.stride, c.len(), task); });
        }
    }
}

static void add_task(std::vector<Contender> &all, [[maybe_unused]] Task task, const std::string &name, const std::string &path) {
    if (name == "simdjson") {
#ifdef SIMDJSON_VERSION
        add_simdjson_tasks(all, task);
#endif
    } else if (name == "rapidjson") {
#ifdef RAPIDJSON_VERSION_STRING
        if (task == Literals) add_rapidjson_task<rapidjson::kParseNumbersAsStringsFlag>(all, task);
        else add_rapidjson_task<rapidjson::kParseFullPrecisionFlag>(all, task);
#endif
    } else if (name.rfind("tasks-", 0) == 0) add_our_tasks(all, task, name.substr(6), path);
    else stop("no contender " + name);
}

// Typed reading; the forms have the numbers of crates/simd_json_typed_bench.
static void add_typed(std::vector<Contender> &all, const std::string &form, const std::string &name, const std::string &path) {
    uint32_t number = form == "lines" ? 0 : form == "tweets" ? 1 : 2;
    auto add = [&](const char *entry, const std::string &shown) {
        auto *over = symbol<uint64_t(uint8_t *, size_t, size_t, size_t, uint32_t)>(path, entry);
        add_asked(all, shown, [over, number](const Copies &c, size_t count) {
            return over(c.at(0), c.stride * count, c.stride, c.len(), number);
        });
    };
    if (name == "serde_json") {
        add("serde_json_typed_owned", "serde_json owned");
        add("serde_json_typed_borrowed", "serde_json borrowed");
        add("crate_typed_owned", "crate owned");
        add("crate_typed_borrowed", "crate borrowed");
    } else {
        std::string level = ", " + name.substr(strlen("typed-"));
        add("simd_json_typed_serde_json", "toolchain owned" + level);
        add("simd_json_typed_serde_json_borrowed", "toolchain borrowed" + level);
        add("simd_json_typed_owned", "simd_json owned" + level);
        add("simd_json_typed_borrowed", "simd_json borrowed" + level);
    }
}
