"""chart.py FOLDER PROCESSOR: draws the speed of a parse of each text, and of tasks, ours beside the others', as an SVG on standard
output. The folder has what the harness measured."""
import sys
from pathlib import Path

from tables import KINDS, Results, found_tasks

WIDTH, MIDDLE, LABEL, BAR, GAP = 760, 410, 138, 5, 8
# Colours with enough contrast on white, and on dark where the reader prefers that.
STYLE = """
  .page { fill: #ffffff } text { font: 13px system-ui, sans-serif; fill: #24292f } .grid { stroke: #d0d7de }
  .kept { fill: #0969da } .fresh { fill: #80b3f0 } .simdjson { fill: #6e7781 } .rapidjson { fill: #bc4c00 } .serde { fill: #8250df }
  .find { fill: #1a7f37 } .check { fill: #8fd19e } .path { fill: #9a6700 }
  @media (prefers-color-scheme: dark) {
    .page { fill: #0d1117 } text { fill: #e6edf3 } .grid { stroke: #30363d }
    .kept { fill: #58a6ff } .fresh { fill: #2f6fb5 } .simdjson { fill: #9ea7b3 } .rapidjson { fill: #f0883e } .serde { fill: #bc8cff }
    .find { fill: #3fb950 } .check { fill: #2a7f42 } .path { fill: #d29922 }
  }
  .title { font-weight: 600; font-size: 15px }
  .small { font-size: 11px }
"""
LEGEND = {
    "kept": "simd_json, buffers kept (tasks: tape)",
    "fresh": "simd_json, fresh",
    "find": "simd_json_ondemand, find",
    "check": "simd_json_ondemand, check",
    "path": "simd_json_path, over a tape",
    "simdjson": "simdjson DOM",
    "rapidjson": "rapidjson, in place",
    "serde": "serde_json, Value",
}


class Picture:
    """What is drawn: panels, which are columns of bars in groups, and the legend."""

    def __init__(self):
        self.out, self.height = [], 0

    def text(self, x, y, text, kind="", anchor="start"):
        self.out.append(f'<text class="{kind}" x="{x:.0f}" y="{y:.0f}" text-anchor="{anchor}">{text}</text>')
        self.height = max(self.height, y + 10)

    def bar(self, x, y, width, height, colour):
        self.out.append(f'<rect class="{colour}" x="{x:.0f}" y="{y:.0f}" width="{width:.1f}" height="{height}"/>')

    def legend(self, left, y, names):
        """A line for each colour, from y on. Returns where they end."""
        for colour, name in names.items():
            self.bar(left, y - 10, 12, 12, colour)
            self.text(left + 18, y, name)
            y += 20
        return y

    def panel(self, left, right, y, title, series, names):
        """A group of bars for each name, from y on. A series is a colour and its values by these names."""
        self.text(left, y, title, "title")
        zero, top, row = left + LABEL, y + 24, BAR * len(series) + GAP
        most = max(value for _, values in series for value in values.values() if value)
        step = next(s for s in (0.1, 0.2, 0.25, 0.5, 1, 2, 5, 10, 20, 50) if most / s <= 6)
        across, bottom = (right - zero) / most, top + row * len(names)
        for i in range(int(most / step) + 1):
            x = zero + i * step * across
            self.out.append(f'<line class="grid" x1="{x:.1f}" x2="{x:.1f}" y1="{top - 6}" y2="{bottom}"/>')
            self.text(x, bottom + 14, f"{i * step:g}", "small", "middle")
        for at, name in enumerate(names):
            self.text(zero - 8, top + (at + 0.5) * row, name, anchor="end")
            for i, (colour, values) in enumerate(series):
                if values.get(name):
                    self.bar(zero, top + at * row + i * BAR, values[name] * across, BAR - 1, colour)

    def svg(self):
        size = f'viewBox="0 0 {WIDTH} {self.height}" role="img" aria-label="Speed by text and by task"'
        page = f'<rect class="page" width="{WIDTH}" height="{self.height}"/>'
        return "\n".join([f'<svg xmlns="http://www.w3.org/2000/svg" {size}>', f"<style>{STYLE}</style>", page, *self.out, "</svg>"])


def named(path):
    """The generated texts without their ending, others as their files are called."""
    return Path(path).stem.replace("_", " ") if "/texts/kinds/" in path else Path(path).name


def parses(results, level):
    """Colours, and the gigabytes of a second at each text, of those that were timed."""
    best = {named(t): 1 / results.base(t, "parse") for t in results.sizes}
    wanted = [
        ("kept", f"simd_json kept, {level}"),
        ("fresh", f"simd_json fresh, {level}"),
        ("simdjson", None),
        ("rapidjson", "rapidjson in place"),
        ("serde", "serde_json Value"),
    ]
    for colour, contender in wanted:
        if contender is None and results.has_simdjson():
            yield colour, best
        elif contender in results.parts:
            yield colour, {named(t): results.ns[t, contender] and 1 / results.ns[t, contender] for t in results.sizes}


def tasks(results):
    """The first contender, colours with the speed in each task over that one's, and the names of the tasks."""
    found = found_tasks(results)
    first = next(iter(next(iter(found.values()))))
    names = dict.fromkeys(name for row in found.values() for name in row)
    wanted = {"find": "find", "check": "check", "kept": "tape", "path": "path", "simdjson": "simdjson DOM", "rapidjson": "rapidjson in place"}
    over = {task: {name: ns and row[first] and row[first] / ns for name, ns in row.items()} for task, row in found.items()}
    series = [(colour, {task: row.get(name) for task, row in over.items()}) for colour, name in wanted.items() if name in names]
    return first, series, list(found)


def main():
    folder = Path(sys.argv[1])
    results, asked = Results(folder / "kinds.tsv"), Results(folder / "tasks.tsv")
    level = results.level()
    order = {kind.replace("_", " "): i for i, kind in enumerate(KINDS)}
    texts = sorted(map(named, results.sizes), key=lambda name: (order.get(name, len(order)), name))
    picture = Picture()
    picture.text(10, 20, f"Longer is faster. Ours at x86-64-{level}, {sys.argv[2]}", "small")
    picture.panel(10, MIDDLE - 20, 46, "A parse, in GB/s", list(parses(results, level)), texts)
    first, done, names = tasks(asked)
    y = picture.legend(MIDDLE + 10, 46, LEGEND)
    picture.panel(MIDDLE + 10, WIDTH - 10, y + 24, f"A task, over {first}", done, names)
    print(picture.svg())


main()
