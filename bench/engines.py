#!/usr/bin/python3
"""Times `jtape lines` over 64 MB of log lines by one process, by four of GNU parallel and by two workers of Dask, and each
engine with `cat` in the program's place, which shows what the engine itself costs. Prints a table of the
shortest time and the least processor time of ROUNDS runs; docs/PROGRAMS.md has the times.

usage: python3 bench/engines.py [ROUNDS]        after `make`; Debian's packages parallel and python3-distributed
"""
import os
import resource
import subprocess
import sys
import tempfile
import time

TOP = os.path.dirname(os.path.dirname(os.path.abspath(__file__)))
SIZE = 64_000_000
FIRST = 1_000_000
LINE = (
    '{"line": %d, "at": "2026-01-01T00:00:%02dZ", "level": "info", "host": "alpha", "path": "/a/b", "status": 200, '
    '"seconds": 0.25, "tags": ["one", "two"], "text": "caf\u00e9 \\"%d\\", and nothing else of note"}\n'
)
WAYS = [
    ("one process", "%s < big.jsonl"),
    ("`parallel --pipe`, four", "parallel -j4 --pipe --block 10M -k %s < big.jsonl"),
    ("`parallel --pipepart`, four", "parallel -j4 --pipepart -a big.jsonl --block 10M -k %s"),
    ("`parallel`, four files", "parallel -j4 -k '%s < {}' ::: logs/*.jsonl"),
    ("Dask, two workers", TOP + "/examples/dask/lines.py '%s' big.jsonl"),
]


def processor():
    used = resource.getrusage(resource.RUSAGE_CHILDREN)
    return used.ru_utime + used.ru_stime


def least(command, rounds, environment):
    times = []
    for _ in range(rounds):
        before, start = processor(), time.monotonic()
        subprocess.run(command + " > out.jsonl", shell=True, check=True, env=environment)
        times.append((time.monotonic() - start, processor() - before))
    return min(wall for wall, _ in times), min(used for _, used in times)


def main():
    rounds = int(sys.argv[1]) if len(sys.argv) > 1 else 5
    with tempfile.TemporaryDirectory() as room:
        os.chdir(room)
        os.mkdir("bin")
        os.mkdir("logs")
        os.symlink(TOP + "/crates/jtape_main/out/jtape_main", "bin/jtape")
        environment = dict(os.environ, PATH=f"{room}/bin:{os.environ['PATH']}", PARALLEL_HOME=room, DASK_TEMPORARY_DIRECTORY=room)
        size = len((LINE % (FIRST, 0, FIRST)).encode())
        lines = SIZE // size
        with open("big.jsonl", "w", encoding="utf-8") as log:
            log.writelines(LINE % (i, i % 60, i) for i in range(FIRST, FIRST + lines))
        subprocess.run(["split", "-n", "l/4", "--additional-suffix=.jsonl", "big.jsonl", "logs/"], check=True)
        print(f"{lines:,} lines of {size} bytes\n")
        print("| | seconds | lines a second | processor seconds | of which the engine |\n|---|---|---|---|---|")
        for name, command in WAYS:
            wall, used = least(command % "jtape lines", rounds, environment)
            _, alone = least(command % "cat", rounds, environment)
            print(f"| {name} | {wall:.2f} | {lines / wall:,.0f} | {used:.2f} | {alone:.2f} |", flush=True)


main()
