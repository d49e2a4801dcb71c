"""python -m simd_json [FILE..]: prints where and why files are no documents, as jcheck does. The status is 1 where one is not, 2 after
an argument that is not understood, and 3 where one can't be read, memory is short, or the output can't be written."""
import argparse
import os
import sys

from . import SimdJsonError, __version__, check

HELP = "Files to check; standard input where there is none, or for -"
NAME = "python -m simd_json"


def complain(name, reason):
    print(f"{NAME}: {name}: {reason}", file=sys.stderr)
    return 3


def check_file(name):
    try:
        with open(0 if name == "-" else name, "rb", closefd=name != "-") as file:
            check(file.read())
    except OSError as error:
        return complain(name, error.strerror)
    except MemoryError:
        return complain(name, "out of memory")
    except SimdJsonError as error:
        print(f"{name}:{error.lineno}:{error.colno}: {error.msg} [{error.shown} at byte {error.pos}]")
        return 1
    return 0


def check_files(names):
    worst = 0
    try:
        for name in names:
            worst = max(worst, check_file(name))
        if sys.stdout:
            sys.stdout.flush()
    except OSError as error:  # of standard output, where only rejected files are named
        worst = max(worst, 1 if isinstance(error, BrokenPipeError) else complain("standard output", error.strerror))
        # What is left of it goes nowhere, or Python would write it again at its end.
        os.dup2(os.open(os.devnull, os.O_WRONLY), sys.stdout.fileno())
    return worst


if __name__ == "__main__":
    parser = argparse.ArgumentParser(NAME, description="Checks that files are JSON, and says where and why they are not.")
    parser.add_argument("names", nargs="*", default=["-"], metavar="FILE", help=HELP)
    parser.add_argument("-V", "--version", action="version", version=f"simd_json {__version__}")
    if sys.stdout:
        sys.stdout.reconfigure(errors="surrogateescape")  # names of files are bytes
    sys.exit(check_files(parser.parse_args().names))
