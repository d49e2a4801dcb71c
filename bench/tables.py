"""tables.py FOLDER: prints what the harness measured, which is in FOLDER, as tables in Markdown.
tables.py FOLDER SPEED.md README.md: puts what matters most between the marks `<!-- results -->` and `<!-- end of results -->` of
the first page, and the mean over all texts and sizes into the sentence of the second."""
import math
import re
import statistics
import sys
from pathlib import Path

# The generated texts come first, in this order.
KINDS = """tweets tweets_ascii catalogue numbers escapes long_strings deep chains literals settings rows integers
200_bytes""".split()
# The texts that are read into types, by their files.
FORMS = {"log": "log lines", "twitter": "tweets", "twitterescaped": "escaped tweets", "canada": "coordinates"}
# What reads into types, and the column that has it. The others' speeds are over the first.
READERS = {"serde_json": None, "toolchain": "toolchain's serde_json", "simd_json": "types, Rattle", "crate": "types, Rust"}
# The sizes of the shapes that are made to be slow.
SHAPE_BYTES = [10**6, 64 * 10**6]
# Columns that a document leaves out; the chart has most of them.
LEFT_OUT = ["fresh", "C check", "C kept check", "yajl, events alone", "rapidjson in place", "serde_json Value"]
LEFT_OUT_OF_TASKS = ["simdjson DOM", "rapidjson in place", READERS["toolchain"]]
# The sentence of README.md that has the mean.
SENTENCE = re.compile(r"\d\.\d\d times on average over \d+ texts and \d+ sizes \(\S+ to \S+\), at `x86-64-v\d`, in \w+ \d{4}")


class Results:
    """`ns[path of a text, contender]`: the nanoseconds of a byte at the fastest round, or None where it was rejected.

    Of a contender whose code was timed at more than one place, the median over these."""

    def __init__(self, path):
        self.sizes, self.parts, placed = {}, {}, {}
        for line in Path(path).read_text().splitlines():
            text, size, part, contender, ns = line.split("\t")
            self.sizes[text] = int(size)
            self.parts[contender] = part
            placed.setdefault((text, contender), []).append(ns)
        self.ns = {of: None if "-" in ns else statistics.median(map(float, ns)) for of, ns in placed.items()}

    def contenders(self, part, ours):
        """Those of simd_json, or all others."""
        return [c for c, of in self.parts.items() if of == part and c.startswith("simd_json ") == ours]

    def has_simdjson(self):
        return any(c.startswith("simdjson ") for c in self.parts)

    def base(self, text, part):
        """The fastest of simdjson's at this text. Where simdjson is absent, the fastest of all."""
        of_part = [c for c, of in self.parts.items() if of == part and self.ns[text, c] is not None]
        simdjson = [c for c in of_part if c.startswith("simdjson ")]
        return min((self.ns[text, c] for c in simdjson or of_part), default=None)

    def ratio(self, text, contender):
        """How much faster than that, as a factor."""
        ns = self.ns[text, contender]
        return ns and self.base(text, self.parts[contender]) / ns

    def level(self):
        """The highest level that was timed."""
        return "v3" if any(c.endswith(", v3") for c in self.parts) else "v2"


def shown_size(size):
    for unit, name in ((10**6, "MB"), (10**3, "kB")):
        if size >= unit:
            return f"{size / unit:g} {name}"
    return f"{size} B"


def shown(number):
    return "-" if number is None else f"{number:.2f}"


def rows(head, lines):
    return "\n".join("| " + " | ".join(line) + " |" for line in [head, ["---"] * len(head), *lines])


def mean(ratios):
    return math.exp(sum(map(math.log, ratios)) / len(ratios)) if None not in ratios else None


def column(contender, level):
    return contender.removeprefix("simd_json ").removesuffix(f", {level}")


def table_of_kinds(results, left_out=()):
    """A line for each text: ours at the highest level that was timed, then the others. Another level has its mean alone."""
    kinds = {t: Path(t).stem for t in results.sizes if "/texts/" in t}
    texts = sorted(results.sizes, key=lambda t: KINDS.index(kinds[t]) if t in kinds else len(KINDS))
    level = results.level()
    ours = [c for part in ("parse", "scan") for c in results.contenders(part, ours=True)]
    shown_ones = [c for c in ours if c.endswith(f", {level}")] + results.contenders("parse", ours=False)
    shown_ones = [c for c in shown_ones if not c.startswith("simdjson ") and column(c, level) not in left_out]
    head = ["text", *(column(c, level) for c in shown_ones)]
    lines = [[kinds[t].replace("_", " ") if t in kinds else Path(t).name, *(shown(results.ratio(t, c)) for c in shown_ones)] for t in texts]
    means = {c: shown(mean([results.ratio(t, c) for t in texts])) for c in ours + shown_ones}
    lines.append(["**geometric mean**", *(means[c] for c in shown_ones)])
    below = [c.removesuffix(f", {level}") + ", v2" for c in shown_ones]
    if level == "v3" and any(c in means for c in below):
        lines.append(["geometric mean, v2", *(means.get(c, "") for c in below)])
    return rows(head, lines)


def table_of_sizes(results, is_brief=False):
    """A line for each size. The brief one has every second, at the highest level."""
    ours = [c for c in results.contenders("parse", ours=True) if not is_brief or c.endswith(f", {results.level()}")]
    base = "simdjson DOM" if results.has_simdjson() else "the fastest"
    head = ["size", f"{base}: ns per byte", *(c.removeprefix("simd_json ") for c in ours)]
    lines = [
        [shown_size(size), shown(results.base(t, "parse")), *(shown(results.ratio(t, c)) for c in ours)]
        for t, size in results.sizes.items()
    ]
    return rows(head, lines[:: 2 if is_brief else 1])


def means(*parts, ours=True):
    """Of ours, at each level, with buffers kept and new, or of the others: the mean over all texts."""
    return "; ".join(
        f"{contender.removeprefix('simd_json ')} {shown(mean([of.ratio(t, contender) for of in parts for t in of.sizes]))}"
        for contender in parts[0].contenders("parse", ours)
        if all(contender in of.parts for of in parts) and not contender.startswith("simdjson ")
    )


def table_of_shapes(shapes, memory):
    """Nanoseconds of a byte at both sizes and their ratio; for kept buffers besides how often that is a tweet's, at most."""
    kept = [c for c in shapes.contenders("parse", ours=True) if " kept, " in c]
    pairs = [(c, c.replace("kept", "fresh"), c.replace("kept", "rejecting")) for c in kept]
    names = list(dict.fromkeys(Path(t).stem for t in shapes.sizes))
    texts = {(Path(t).stem, i): t for i, n in enumerate(SHAPE_BYTES) for t in shapes.sizes if f"/{n}/" in t}

    def cell(name, *contenders):
        found = [next((shapes.ns[texts[name, i], c] for c in contenders if shapes.ns[texts[name, i], c]), None) for i in (0, 1)]
        return "-" if None in found else f"{found[0]:.2f}, {found[1]:.2f} ({found[1] / found[0]:.2f})"

    def of_a_tweet(name):
        costs = [(shapes.ns[texts[name, i], c], shapes.ns[texts["tweets", i], c]) for i in (0, 1) for c in kept]
        return "-" if None in [ns for ns, _ in costs] else f"{max(ns / tweet for ns, tweet in costs):.2f}"

    head = ["shape", *(n.removeprefix("simd_json ") for c, fresh, _ in pairs for n in (c, fresh)), "of a tweet's byte", "memory a byte"]
    used = dict(line.split("\t") for line in Path(memory).read_text().splitlines())
    lines = [
        [n, *(x for c, fresh, rejecting in pairs for x in (cell(n, c), cell(n, fresh, rejecting))), of_a_tweet(n), used[n]]
        for n in names
    ]
    return rows(head, lines)


def table_of_lines(lines, is_brief=False):
    """What a line takes, and how much faster than the fastest of simdjson's."""
    ((text, size),) = lines.sizes.items()
    found = lines.contenders("parse", ours=False) + lines.contenders("parse", ours=True)
    if is_brief and any(c.endswith(", v3") for c in found):
        found = [c for c in found if not c.endswith(", v2")]
    per_line = {c: lines.ns[text, c] and 199 * lines.ns[text, c] for c in found}
    return rows(
        ["", "ns a line", "speed"],
        [[c, shown(ns), shown(lines.ratio(text, c))] for c, ns in per_line.items()],
    )


def found_tasks(tasks):
    """A row of each task: its name, and what each contender takes, in milliseconds. The first is simdjson's On-Demand, if it is there."""
    found = {}
    for (text, contender), ns in tasks.ns.items():
        task, name = contender.split(": ")
        name = name.removeprefix("simd_json ").split(", ")[0]
        found.setdefault(task, {})[name] = ns and ns * tasks.sizes[text] / 1e6
    return found


def found_typed(typed):
    """A row of each text and form. The first contender is Rust's serde_json, if it is there: with owned strings where it can't borrow
    them. What has no strings has one form."""
    found = {}
    for text, size in typed.sizes.items():
        ms = {name.split(", ")[0]: ns and ns * size / 1e6 for (of, name), ns in typed.ns.items() if of == text}
        name = FORMS[Path(text).stem]
        for form in ("owned",) if name == "coordinates" else ("owned", "borrowed"):
            row = {reader: ms[f"{reader} {form}"] for reader in READERS if f"{reader} {form}" in ms}
            if "serde_json" in row:
                row["serde_json"] = row["serde_json"] or ms["serde_json owned"]
            found[f"{name}, {form}"] = row
    return found


def table_of_tasks(tasks, typed, left_out=()):
    """A line for each task and each type that is read: what the first contender takes, and the speeds over that."""
    found = found_tasks(tasks)
    names = list(dict.fromkeys(name for row in found.values() for name in row))
    shown_ones = [*names[1:], *filter(None, READERS.values())]
    found |= {task: {READERS[reader] or reader: ms for reader, ms in row.items()} for task, row in found_typed(typed).items()}
    lines = []
    for task, row in found.items():
        base = next(iter(row.values())) or min(filter(None, row.values()))
        cells = ["" if name not in row else shown(row[name] and base / row[name]) for name in shown_ones if name not in left_out]
        lines.append([task, shown(base), *cells])
    return rows(["task", "ms", *(name for name in shown_ones if name not in left_out)], lines)


def mean_of_crate(typed):
    """How much faster than Rust's serde_json the crate for Rust is, over texts and forms."""
    found = [row for row in found_typed(typed).values() if "serde_json" in row]
    return shown(mean([row["serde_json"] / row["crate"] for row in found])) if found else "-"


def mean_of_all(kinds, sizes, when):
    """What README.md says: the mean of kept buffers over all texts and sizes, and the range."""
    ratios = [of.ratio(t, f"simd_json kept, {kinds.level()}") for of in (kinds, sizes) for t in of.sizes]
    return (
        f"{shown(mean(ratios))} times on average over {len(kinds.sizes)} texts and {len(sizes.sizes)} sizes "
        f"({shown(min(ratios))} to {shown(max(ratios))}), at `x86-64-{kinds.level()}`, in {' '.join(when.split(',')[0].split()[1:])}"
    )


def put(document, pattern, text):
    """Puts the text in place of the one that the pattern finds."""
    page = document.read_text()
    if not pattern.search(page):
        sys.exit(f"{document} has no place for the results")
    document.write_text(pattern.sub(lambda _: text, page, count=1))


def main():
    folder, *documents = map(Path, sys.argv[1:])
    kinds, varied, sizes, log, tasks, typed = (
        Results(folder / f"{name}.tsv") for name in ("kinds", "varied", "sizes", "lines", "tasks", "typed")
    )
    when = (folder / "when").read_text().strip()
    whole, scan = ("simdjson's best DOM parse", "its best stage 1") if kinds.has_simdjson() else ("the fastest", "the fastest")
    checks = [kinds.ratio(t, f"simd_json C kept check, {kinds.level()}") for t in kinds.sizes]
    first = next(iter(next(iter(found_tasks(tasks).values()))))
    text = (
        f"Measured on {when}. Speed of a whole parse over {whole}, of a scan over {scan}, ours at `x86-64-{kinds.level()}`.\n\n"
        f"{table_of_kinds(kinds, LEFT_OUT if documents else ())}\n\n"
        f"Geometric mean of C's kept check {shown(mean(checks))}; of the others: {means(kinds, ours=False) or 'none is installed'}.\n\n"
        f"Over forty different texts of 24 kB of each kind, one after the other: {means(varied)}.\n\n"
        f"Cost against size, over tweets: what a byte of {whole} takes, and our speed over it.\n\n"
        f"{table_of_sizes(sizes, bool(documents))}\n\n"
        f"Geometric mean over these {len(kinds.sizes)} texts and {len(sizes.sizes)} sizes: {means(kinds, sizes)}.\n\n"
        f"A log of {sum(log.sizes.values()) // 200:,} lines of 200 bytes, line by line or as one stream, and the speed over the fastest "
        f"of {'simdjson' if log.has_simdjson() else 'all'}.\n\n"
        f"{table_of_lines(log, bool(documents))}\n\n"
        f"Tasks: what {first} takes, and our speed over that by a kept tape, on demand (`find`), on demand after a check, and by JSONPath "
        f"over a tape (`path`, 32 times). Types with owned strings, or borrowed ones (in Rattle by `borrowed_str`): what Rust's "
        f"`serde_json` takes, and the speed over that of `simd_json_serde` and of the crate for Rust "
        f"(geometric mean {mean_of_crate(typed)}).\n\n"
        f"{table_of_tasks(tasks, typed, LEFT_OUT_OF_TASKS if documents else ())}\n"
    )
    if documents:
        speed, readme = documents
        put(speed, re.compile("<!-- results -->.*<!-- end of results -->", re.DOTALL), f"<!-- results -->\n\n{text}\n<!-- end of results -->")
        put(readme, SENTENCE, mean_of_all(kinds, sizes, when))
        return
    print(text)
    print("Forty different texts of 24 kB of each kind, one after the other.\n")
    print(table_of_kinds(varied), end="\n\n")
    print("Shapes that are made to be slow: nanoseconds of a byte at 1 MB, at 64 MB (and how many times as much that is).\n")
    print(table_of_shapes(Results(folder / "shapes.tsv"), folder / "memory.tsv"))


if __name__ == "__main__":
    main()
