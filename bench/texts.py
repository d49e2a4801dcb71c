"""texts.py FOLDER [FILE..]: writes the texts of the benchmark, the same on every machine.

FOLDER/kinds has one text of each kind, FOLDER/varied forty short ones, FOLDER/sizes tweets of about 1 kB, 4 kB and so on to
64 MB, FOLDER/lines a log of LINES lines (1,000,000) of 200 bytes, FOLDER/tasks the texts of the tasks: a log of 200,000 lines,
and for four well-known texts the FILE of that name, or else a text of its shape."""
import itertools
import json
import os
import random
import sys
from pathlib import Path

# Bytes of a text of one kind: more than the caches near a core hold, and of one whose nodes they hold.
KIND_BYTES, VARIED_BYTES = 1_000_000, 24_000
SIZES = [n * unit for unit in (1000, 1_000_000) for n in (1, 4, 16, 64, 256)][:-1]

LATIN = """about after answer before between bread bridge carry city cloud could every field first garden great harbour
house light little market morning mountain never night other paper people place quick river school second should small
station stone street summer table their there though tower train under water where while window winter world write""".split()
OTHER = "海の家 東京駅 ありがとう 朝ごはん 読む 雨 本日 привет река книга été déjà façade größer über señal 😀 🎉 🚆 ☕".split()


class Source:
    """What the texts are drawn from. Only `random()` is used, whose numbers are the same in every Python."""

    def __init__(self, seed):
        self.random = random.Random(seed).random

    def below(self, n):
        return int(self.random() * n)

    def one_of(self, choices):
        return choices[self.below(len(choices))]

    def words(self, count, others=0.0):
        return " ".join(self.one_of(OTHER if self.random() < others else LATIN) for _ in range(count))


def tweet(s, others):
    number = 500_000_000_000_000_000 + s.below(10**17)
    user = {
        "id": s.below(10**9),
        "name": s.words(2, others),
        "screen_name": s.one_of(LATIN) + str(s.below(1000)),
        "location": s.words(1, others),
        "followers_count": s.below(5000),
        "friends_count": s.below(900),
        "verified": s.below(50) == 0,
        "url": None if s.below(3) else f"http://example.org/{s.below(10**6)}",
    }
    tags = [{"text": s.one_of(LATIN), "indices": [i * 9, i * 9 + 7]} for i in range(s.below(3))]
    return {
        "created_at": f"Sun Aug 31 00:{s.below(60):02}:{s.below(60):02} +0000 2014",
        "id": number,
        "id_str": str(number),
        "text": s.words(8 + s.below(12), others),
        "source": '<a href="http://example.org/app">app</a>',
        "user": user,
        "entities": {"hashtags": tags, "urls": []},
        "coordinates": None,
        "retweet_count": s.below(100),
        "favorited": False,
        "lang": s.one_of(["ja", "ru", "fr", "en"]),
    }


def product(s):
    prices = [{"amount": 100 + s.below(9000), "area": 205705993 + i, "seat": None} for i in range(1 + s.below(4))]
    return {
        "id": 138586341 + s.below(10**6),
        "name": s.words(3),
        "description": None,
        "topics": [324846098 + s.below(10) for _ in range(s.below(5))],
        "prices": prices,
        "start": 1372701600000 + s.below(10**9),
    }


def number(s):
    return s.one_of([s.below(10), s.below(10**6), -s.below(10**12), s.random() * 180 - 90, s.random(), s.random() * 1e-9])


def paragraph(s):
    lines = [s.words(12) for _ in range(5 + s.below(30))]
    return {"name": s.words(2), "text": ".\n".join(lines) + ' "end"'}


def chain(s):
    value = s.below(100)
    for _ in range(100):
        value = [value] if s.below(2) else {"next": value}
    return value


def settings(s):
    names = [s.one_of(LATIN) for _ in range(4 + s.below(12))]
    return {name: s.one_of([0, s.below(1000), s.below(2) == 0, s.one_of(LATIN)]) for name in names}


def short_chain(s):
    """Arrays and objects in turn, some 20 deep."""
    value = s.below(100)
    for _ in range(8 + s.below(5)):
        value = {f"k{s.below(10)}": [value]}
    return value


def row(s):
    return [s.one_of([s.one_of(LATIN), s.below(10**5), s.below(10**5) / 100, None]) for _ in range(8)]


def long_integer(s):
    """Of 8 to 16 digits, each length as often as the others."""
    least = 10 ** (7 + s.below(9))
    return least + s.below(9 * least)


def compact(value, ascii_only=False):
    return json.dumps(value, separators=(",", ":"), ensure_ascii=ascii_only)


def filled(size, elements):
    """A list of the first elements, of about as many bytes."""
    parts, length = [], 0
    while length < size or not parts:
        parts.append(next(elements))
        length += len(parts[-1].encode()) + 1
    return "[" + ",".join(parts) + "]"


# What each kind is a list of, and the seed of its source.
ELEMENTS = {
    "tweets": (lambda s: compact(tweet(s, 0.5)), 1),
    "tweets_ascii": (lambda s: compact(tweet(s, 0.0)), 2),
    "catalogue": (lambda s: json.dumps(product(s), indent=4), 3),
    "numbers": (lambda s: compact([number(s) for _ in range(20)]), 4),
    "escapes": (lambda s: compact(tweet(s, 0.5), ascii_only=True), 5),
    "long_strings": (lambda s: compact(paragraph(s)), 6),
    "deep": (lambda s: compact(chain(s)), 7),
    "chains": (lambda s: compact(short_chain(s)), 10),
    "literals": (lambda s: s.one_of(["true", "false", "null"]), 11),
    "settings": (lambda s: json.dumps(settings(s), indent=4, separators=(",", " : ")), 12),
    "rows": (lambda s: compact(row(s)), 13),
    "integers": (lambda s: str(long_integer(s)), 14),
}


def kinds():
    for name, (element, seed) in ELEMENTS.items():
        s = Source(seed)
        yield name, filled(KIND_BYTES, iter(lambda: element(s), None))
    # Small enough that a text's own costs show: the harness parses each copy by itself.
    s = Source(8)
    short = {"id": s.below(10**6), "name": s.words(2), "tags": [s.one_of(LATIN) for _ in range(6)], "price": 12.5}
    short["text"] = s.words(20)[: 200 - len(compact(short | {"text": ""}))]
    yield "200_bytes", compact(short)


def varied():
    """Of each kind forty texts, a line each: with a blank for each line feed, and blanks up to one length. A text that is
    parsed again and again is known to the branch predictor; of these none comes twice before all others."""
    for name, (element, seed) in ELEMENTS.items():
        s = Source(100 + seed)
        texts = [filled(VARIED_BYTES, iter(lambda: element(s), None)).replace("\n", " ").encode() for _ in range(40)]
        longest = max(map(len, texts))
        yield name, b"".join(text.ljust(longest) + b"\n" for text in texts)


def tweets_of(size):
    """A list of tweets of exactly that size: the last one's text is as long as it takes. Beyond 4 MB tweets come again."""
    s = Source(9)
    tweets = [compact(tweet(s, 0.5)) for _ in range(min(size // 600, 5000) + 1)]
    last = tweet(s, 0.0) | {"text": ""}
    front = filled(size - 1900, itertools.cycle(tweets))[:-1] + "," if size > 1900 else "["
    last["text"] = s.words(500)[: size - len(front.encode()) - len(compact(last)) - 1]
    return front + compact(last) + "]"


def line_of(s, number):
    """Of exactly 200 bytes with its line feed: the text is as long as it takes."""
    record = {
        "time": 1409443200000 + number * 37,
        "level": s.one_of(["debug", "info", "info", "info", "warn", "error"]),
        "host": f"node{s.below(64):02}",
        "path": "/" + "/".join(s.words(3).split()),
        "status": s.one_of([200, 200, 200, 304, 404, 500]),
        "ms": s.below(10**5) / 100,
        "user": s.below(10**6) if s.below(3) else None,
        "retry": s.below(9) == 0,
        "text": "",
    }
    record["text"] = s.words(30)[: 199 - len(compact(record))]
    return compact(record) + "\n"


def write_lines(path, count):
    """10,000 lines that come again."""
    s = Source(15)
    lines = "".join(line_of(s, n) for n in range(10_000)).encode()
    whole, left = divmod(count, 10_000)
    with path.open("wb") as log:
        for _ in range(whole):
            log.write(lines)
        log.write(lines[: 200 * left])


def account(s, others):
    """A user with the members that a search of Twitter gives, in their order."""
    user = tweet(s, others)["user"]
    hex_color = [f"{s.below(2**24):06X}" for _ in range(5)]
    colors = ["background_color", "link_color", "sidebar_border_color", "sidebar_fill_color", "text_color"]
    image = f"http://pbs.example.org/profile_images/{s.below(10**18)}/{s.one_of(LATIN)}_normal.jpeg"
    return {
        "id": user["id"],
        "id_str": str(user["id"]),
        "name": user["name"],
        "screen_name": user["screen_name"],
        "location": user["location"],
        "description": s.words(s.below(25), others),
        "url": user["url"],
        "entities": {"description": {"urls": []}},
        "protected": False,
        "followers_count": user["followers_count"],
        "friends_count": user["friends_count"],
        "listed_count": s.below(20),
        "created_at": f"Sat Feb {10 + s.below(18)} 13:{10 + s.below(50)}:08 +0000 2013",
        "favourites_count": s.below(5000),
        "utc_offset": s.one_of([None, 32400]),
        "time_zone": s.one_of([None, "Tokyo"]),
        **{name: s.below(3) == 0 for name in ("geo_enabled", "verified")},
        "statuses_count": s.below(50000),
        "lang": "ja",
        **{name: False for name in ("contributors_enabled", "is_translator", "is_translation_enabled")},
        **{f"profile_{name}": color for name, color in zip(colors, hex_color)},
        **{f"profile_{name}": image for name in ("background_image_url", "image_url", "image_url_https", "banner_url")},
        **{name: s.below(2) == 0 for name in ("default_profile", "default_profile_image")},
        **{name: False for name in ("following", "follow_request_sent", "notifications")},
    }


def status(s, others, number, repeated=None):
    """A tweet of such a search; of three fifths another is repeated."""
    found = tweet(s, others)
    reply = s.one_of([None, None, None, number - s.below(10**9)])
    mention = {"screen_name": s.one_of(LATIN), "name": s.words(2, others), "id": s.below(10**9), "indices": [0, 9]}
    return {
        "metadata": {"result_type": "recent", "iso_language_code": "ja"},
        "created_at": found["created_at"],
        "id": number,
        "id_str": str(number),
        "text": ("RT @" + s.one_of(LATIN) + ": " if repeated else "") + s.words(8 + s.below(12), others) + s.one_of(["", "\n"]),
        "source": found["source"],
        "truncated": False,
        "in_reply_to_status_id": reply,
        "in_reply_to_status_id_str": reply and str(reply),
        **{f"in_reply_to_{name}": None for name in ("user_id", "user_id_str", "screen_name")},
        "user": account(s, others),
        **{name: None for name in ("geo", "coordinates", "place", "contributors")},
        **({"retweeted_status": repeated} if repeated else {}),
        "retweet_count": s.below(100),
        "favorite_count": s.below(10),
        "entities": found["entities"] | {"symbols": [], "user_mentions": [mention] if repeated else []},
        "favorited": False,
        "retweeted": False,
        "lang": "ja",
    }


def twitter(escaped=False):
    """A search with 100 tweets; the 14th has the number that is looked for."""
    s, statuses = Source(16), []
    for n in range(100):
        number = 505874901689851900 if n == 13 else 505800000000000000 + s.below(10**13)
        repeated = status(s, 0.6, number - s.below(10**12)) if s.below(5) > 1 else None
        statuses.append(status(s, 0.6, number, repeated))
    search = {"statuses": statuses, "search_metadata": {"count": 100}}
    return compact(search, ascii_only=True) if escaped else json.dumps(search, indent=2, ensure_ascii=False)


def performance(s, event):
    categories = [338937235 + s.below(100) for _ in range(1 + s.below(5))]
    return {
        "eventId": event,
        "id": 339887544 + s.below(10**6),
        "logo": s.one_of([None, f"/images/UE0AAAAACEKo6QAAAAZDSVR{s.below(10)}"]),
        "name": None,
        "prices": [{"amount": 100 * s.below(900), "audienceSubCategoryId": 337100890, "seatCategoryId": c} for c in categories],
        "seatCategories": [
            {"areas": [{"areaId": 205705993 + s.below(20), "blockIds": []} for _ in range(3 + s.below(14))], "seatCategoryId": c}
            for c in categories
        ],
        "seatMapImage": None,
        "start": 1372701600000 + s.below(10**9),
        "venueCode": "PLEYEL_PLEYEL",
    }


def citm():
    """184 events and 243 performances."""
    s, events = Source(17), [138586341 + 4 * n for n in range(184)]
    described = {
        str(n): {"description": None, "id": n, "logo": None, "name": s.words(3), "subTopicIds": [337184269 + s.below(30) for _ in range(3)],
                 "subjectCode": None, "subtitle": None, "topicIds": [324846099, 107888604]}
        for n in events
    }
    performances = [performance(s, s.one_of(events)) for _ in range(243)]
    return json.dumps({"areaNames": {}, "events": described, "performances": performances}, indent=4)


def canada():
    """The outline of 480 areas, 55,000 points in all."""
    s, rings = Source(18), []
    for n in range(480):
        x, y = s.random() * 80 - 140, s.random() * 40 + 42
        rings.append([[x := x + s.random() / 50 - 0.01, y := y + s.random() / 50 - 0.01] for _ in range(15 + (n % 2) * 199)])
    geometry = {"type": "Polygon", "coordinates": rings}
    feature = {"type": "Feature", "properties": {"name": "Canada"}, "geometry": geometry}
    return compact({"type": "FeatureCollection", "features": [feature]})


TASKS = {
    "twitter.json": twitter,
    "twitterescaped.json": lambda: twitter(escaped=True),
    "citm_catalog.json": citm,
    "canada.json": canada,
}


def main():
    if len(sys.argv) < 2 or sys.argv[1].startswith("-"):
        sys.exit("usage: texts.py FOLDER [FILE..]")
    folder = Path(sys.argv[1])
    for name in ("kinds", "varied", "sizes", "lines", "tasks"):
        (folder / name).mkdir(parents=True, exist_ok=True)
    for name, text in kinds():
        (folder / "kinds" / f"{name}.json").write_bytes(text.encode())
    for name, lines in varied():
        (folder / "varied" / f"{name}.jsonl").write_bytes(lines)
    for i, size in enumerate(SIZES):
        (folder / "sizes" / f"{i}.json").write_bytes(tweets_of(size).encode())
    write_lines(folder / "lines" / "log.jsonl", int(os.environ.get("LINES", 1_000_000)))
    write_lines(folder / "tasks" / "log.jsonl", 200_000)
    given = {Path(path).name: Path(path) for path in sys.argv[2:]}
    for name, text in TASKS.items():
        (folder / "tasks" / name).write_bytes(given[name].read_bytes() if name in given else text().encode())


main()
