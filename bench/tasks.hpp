// Tasks: each reads some values of a text, and returns a sum of them, on which all contenders agree. harness.cpp includes this.
// The numbers and sums are those of crates/simd_json_bench/src/tasks.rt.
#pragma once
#include <algorithm>
#include <bit>
#include <cstdint>
#include <string>
#include <string_view>
#include <vector>

#if __has_include(<simdjson.h>)
#include <simdjson.h>
#endif
#if __has_include(<rapidjson/document.h>)
#include <rapidjson/document.h>
#endif

enum Task { PartialTweets, FindTweet, TopTweet, DistinctUsers, Catalogue, Literals, Floats, LogLines, Amounts, AmountsBeneath };
static const char *const TASKS[] = {"partial tweets", "find tweet", "top tweet", "distinct users", "citm", "coordinates", "coordinates as f64", "log lines", "prices[*].amount", "..amount"};

constexpr uint64_t WANTED = 505874901689851900, NONE = UINT64_MAX;
// How often a text is asked for its amounts.
constexpr int ASKED = 32;

static inline uint64_t mark(std::string_view text) {
    return text.size() * 1000003 + (text.empty() ? 0 : uint8_t(text.front()) + uint8_t(text.back()));
}

static inline uint64_t distinct(std::vector<uint64_t> &ids) {
    std::sort(ids.begin(), ids.end());
    ids.erase(std::unique(ids.begin(), ids.end()), ids.end());
    uint64_t sum = ids.size();
    for (uint64_t id : ids) sum += id;
    return sum;
}

// The status is read at the level `error` alone.
template <class Status> static uint64_t line_mark(std::string_view level, Status status) {
    if (level == "debug") return 1;
    if (level == "info") return 1000003;
    if (level == "warn") return 1000033;
    return level == "error" ? 1000037 + 1000039 * status() : NONE;
}

#ifdef SIMDJSON_VERSION
// simdjson throws where a value is missing.
namespace on_demand {
using namespace simdjson;

static inline ondemand::array statuses(ondemand::document &root) { return root.find_field("statuses"); }

static inline uint64_t partial(ondemand::document &root) {
    uint64_t sum = 0;
    for (ondemand::object tweet : statuses(root)) {
        sum += mark(tweet.find_field("created_at"));
        sum += uint64_t(tweet.find_field("id"));
        sum += mark(tweet.find_field("text"));
        ondemand::value reply = tweet.find_field("in_reply_to_status_id");
        if (!reply.is_null()) sum += uint64_t(reply);
        ondemand::object user = tweet.find_field("user");
        sum += uint64_t(user.find_field("id"));
        sum += mark(user.find_field("screen_name"));
        sum += uint64_t(tweet.find_field("retweet_count"));
        sum += uint64_t(tweet.find_field("favorite_count"));
    }
    return sum;
}

static inline uint64_t found(ondemand::document &root) {
    for (ondemand::object tweet : statuses(root))
        if (uint64_t(tweet.find_field("id")) == WANTED) return mark(tweet.find_field("text"));
    return NONE;
}

// Strings are decoded at the end.
static inline uint64_t top(ondemand::document &root, ondemand::parser &parser, std::vector<uint8_t> &room) {
    ondemand::raw_json_string text, name;
    bool is_first = true;
    uint64_t most = 0;
    for (ondemand::object tweet : statuses(root)) {
        ondemand::raw_json_string this_text = tweet.find_field("text").get_raw_json_string();
        ondemand::raw_json_string this_name = tweet.find_field("user").find_field("name").get_raw_json_string();
        uint64_t retweets = tweet.find_field("retweet_count");
        if (is_first || retweets > most) text = this_text, name = this_name, most = retweets;
        is_first = false;
    }
    if (is_first) return NONE;
    room.resize(1 << 16);
    uint8_t *free = room.data();
    uint64_t sum = most + mark(parser.unescape(text, free));
    return sum + mark(parser.unescape(name, free));
}

static inline uint64_t users(ondemand::document &root) {
    std::vector<uint64_t> ids;
    for (ondemand::object tweet : statuses(root)) {
        ids.push_back(tweet.find_field("user").find_field("id"));
        ondemand::object repeated;
        if (!tweet.find_field("retweeted_status").get(repeated)) ids.push_back(repeated.find_field("user").find_field("id"));
    }
    return distinct(ids);
}

static inline uint64_t catalogue(ondemand::document &root) {
    uint64_t sum = 0;
    for (ondemand::object performance : root.find_field("performances").get_array()) {
        sum += 1000003 + uint64_t(performance.find_field("eventId"));
        for (ondemand::object price : performance.find_field("prices").get_array()) sum += uint64_t(price.find_field("amount"));
    }
    return sum;
}

static inline uint64_t amounts(ondemand::document &root) {
    uint64_t sum = 0;
    for (ondemand::object performance : root.find_field("performances").get_array())
        for (ondemand::object price : performance.find_field("prices").get_array()) sum += uint64_t(price.find_field("amount"));
    return sum;
}

static inline uint64_t amounts_beneath(ondemand::value value) {
    uint64_t sum = 0;
    ondemand::json_type type = value.type();
    if (type == ondemand::json_type::array)
        for (ondemand::value one : value.get_array()) sum += amounts_beneath(one);
    if (type == ondemand::json_type::object)
        for (auto field : value.get_object()) {
            std::string_view key = field.unescaped_key();
            sum += key == "amount" ? uint64_t(field.value()) : amounts_beneath(field.value());
        }
    return sum;
}

template <class One> static inline uint64_t asked(ondemand::document &root, One one) {
    uint64_t sum = 0;
    for (int i = 0; i < ASKED; i++, root.rewind()) sum += one(root);
    return sum;
}

template <class Mark> static inline uint64_t coordinates(ondemand::document &root, Mark mark) {
    uint64_t sum = 0;
    for (auto feature : root.find_field("features"))
        for (auto ring : feature.find_field("geometry").find_field("coordinates"))
            for (auto point : ring)
                for (ondemand::value number : point) sum += mark(number);
    return sum;
}

static inline uint64_t literal(ondemand::value number) {
    std::string_view token = number.raw_json_token();
    while (token.back() == ' ' || token.back() == '\n') token.remove_suffix(1);
    return token.size();
}

static inline uint64_t line(ondemand::document_reference root) {
    ondemand::object members = root.get_object();
    return line_mark(members.find_field("level"), [&]() -> uint64_t { return members.find_field("status"); });
}

static inline uint64_t answer(Task task, ondemand::document &root, ondemand::parser &parser, std::vector<uint8_t> &room) {
    switch (task) {
    case PartialTweets: return partial(root);
    case FindTweet: return found(root);
    case TopTweet: return top(root, parser, room);
    case DistinctUsers: return users(root);
    case Catalogue: return catalogue(root);
    case Literals: return coordinates(root, literal);
    case Floats: return coordinates(root, [](ondemand::value number) { return std::bit_cast<uint64_t>(double(number)); });
    case Amounts: return asked(root, amounts);
    case AmountsBeneath: return asked(root, [](ondemand::document &document) { return amounts_beneath(document.get_value()); });
    default: return NONE;
    }
}
}  // namespace on_demand
#endif

// The tasks over trees: `Get` says how a value of one is read. One without it throws.
template <class Get> struct Tree {
    using Value = typename Get::Value;

    static uint64_t partial(Value tweet) {
        Value user = Get::at(tweet, "user"), reply = Get::at(tweet, "in_reply_to_status_id");
        return mark(Get::text(Get::at(tweet, "created_at"))) + Get::number(Get::at(tweet, "id")) + mark(Get::text(Get::at(tweet, "text"))) +
               (Get::is_null(reply) ? 0 : Get::number(reply)) + Get::number(Get::at(user, "id")) +
               mark(Get::text(Get::at(user, "screen_name"))) + Get::number(Get::at(tweet, "retweet_count")) +
               Get::number(Get::at(tweet, "favorite_count"));
    }

    static uint64_t top(Value root) {
        Value top{};
        uint64_t most = 0;
        bool is_first = true;
        for (Value tweet : Get::array(Get::at(root, "statuses"))) {
            uint64_t retweets = Get::number(Get::at(tweet, "retweet_count"));
            if (is_first || retweets > most) top = tweet, most = retweets;
            is_first = false;
        }
        if (is_first) return NONE;
        return most + mark(Get::text(Get::at(top, "text"))) + mark(Get::text(Get::at(Get::at(top, "user"), "name")));
    }

    static uint64_t users(Value root) {
        std::vector<uint64_t> ids;
        for (Value tweet : Get::array(Get::at(root, "statuses"))) {
            ids.push_back(Get::number(Get::at(Get::at(tweet, "user"), "id")));
            Value repeated;
            if (Get::has(tweet, "retweeted_status", repeated)) ids.push_back(Get::number(Get::at(Get::at(repeated, "user"), "id")));
        }
        return distinct(ids);
    }

    static uint64_t catalogue(Value root) {
        uint64_t sum = 0;
        for (Value performance : Get::array(Get::at(root, "performances"))) {
            sum += 1000003 + Get::number(Get::at(performance, "eventId"));
            for (Value price : Get::array(Get::at(performance, "prices"))) sum += Get::number(Get::at(price, "amount"));
        }
        return sum;
    }

    static uint64_t amounts(Value root) {
        uint64_t sum = 0;
        for (Value performance : Get::array(Get::at(root, "performances")))
            for (Value price : Get::array(Get::at(performance, "prices"))) sum += Get::number(Get::at(price, "amount"));
        return sum;
    }

    static uint64_t amounts_beneath(Value value) {
        uint64_t sum = 0;
        Get::each_child(value, [&](std::string_view key, Value child) {
            sum += key == "amount" ? Get::number(child) : amounts_beneath(child);
        });
        return sum;
    }

    template <class Mark> static uint64_t coordinates(Value root, Mark mark) {
        uint64_t sum = 0;
        for (Value feature : Get::array(Get::at(root, "features")))
            for (Value ring : Get::array(Get::at(Get::at(feature, "geometry"), "coordinates")))
                for (Value point : Get::array(ring))
                    for (Value number : Get::array(point)) sum += mark(number);
        return sum;
    }

    static uint64_t answer(Task task, Value root) {
        uint64_t sum = 0;
        switch (task) {
        case PartialTweets:
            for (Value tweet : Get::array(Get::at(root, "statuses"))) sum += partial(tweet);
            return sum;
        case FindTweet:
            for (Value tweet : Get::array(Get::at(root, "statuses")))
                if (Get::number(Get::at(tweet, "id")) == WANTED) return mark(Get::text(Get::at(tweet, "text")));
            return NONE;
        case TopTweet: return top(root);
        case DistinctUsers: return users(root);
        case Catalogue: return catalogue(root);
        case Literals: return coordinates(root, Get::literal);
        case Floats: return coordinates(root, [](Value number) { return std::bit_cast<uint64_t>(Get::real(number)); });
        case Amounts:
            for (int i = 0; i < ASKED; i++) sum += amounts(root);
            return sum;
        case AmountsBeneath:
            for (int i = 0; i < ASKED; i++) sum += amounts_beneath(root);
            return sum;
        case LogLines: return line_mark(Get::text(Get::at(root, "level")), [&] { return Get::number(Get::at(root, "status")); });
        }
        return NONE;
    }
};

#ifdef SIMDJSON_VERSION
struct Dom {
    using Value = simdjson::dom::element;
    static Value at(Value v, std::string_view key) { return v.at_key(key); }
    static bool has(Value v, std::string_view key, Value &found) { return !v.at_key(key).get(found); }
    static simdjson::dom::array array(Value v) { return v; }
    static std::string_view text(Value v) { return v; }
    static uint64_t number(Value v) { return v; }
    static double real(Value v) { return v; }
    static bool is_null(Value v) { return v.is_null(); }
    static uint64_t literal(Value) { return NONE; }
    // An element has no key.
    template <class On> static void each_child(Value v, On on) {
        if (v.is_array())
            for (Value one : simdjson::dom::array(v)) on({}, one);
        else if (v.is_object())
            for (auto [key, value] : simdjson::dom::object(v)) on(key, value);
    }
};
#endif

#ifdef RAPIDJSON_VERSION_STRING
// A value by its address, so that it is copied as those of simdjson are.
struct Rapid {
    struct Value {
        const rapidjson::Value *value;
        Value(const rapidjson::Value &v) : value(&v) {}
        Value() = default;
    };
    static Value at(Value v, std::string_view key) {
        Value found;
        return has(v, key, found) ? found : throw std::string(key);
    }
    static bool has(Value v, std::string_view key, Value &found) {
        auto member = v.value->FindMember(rapidjson::Value(rapidjson::StringRef(key.data(), key.size())));
        return member != v.value->MemberEnd() && (found = member->value, true);
    }
    static auto array(Value v) { return v.value->GetArray(); }
    static std::string_view text(Value v) { return {v.value->GetString(), v.value->GetStringLength()}; }
    static uint64_t number(Value v) { return v.value->GetUint64(); }
    static double real(Value v) { return v.value->GetDouble(); }
    static bool is_null(Value v) { return v.value->IsNull(); }
    static uint64_t literal(Value v) { return v.value->GetStringLength(); }
    template <class On> static void each_child(Value v, On on) {
        if (v.value->IsArray())
            for (auto &one : v.value->GetArray()) on({}, Value(one));
        else if (v.value->IsObject())
            for (auto &member : v.value->GetObject()) on(text(Value(member.name)), Value(member.value));
    }
};
#endif
