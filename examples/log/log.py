"""log.py FILE: prints status and path of each line of a log, and where and why a line is no document."""
import sys

import simd_json


def main(name):
    is_right = True
    parser = simd_json.Parser()
    with open(name, "rb") as file:
        for number, line in enumerate(file, 1):
            try:
                value = parser.loads(line)
                print(value["status"], value["path"])
                continue
            except simd_json.SimdJsonError as error:
                print(f"{name}:{number}:{error.colno}: {error.msg}")
            except (KeyError, TypeError):
                print(f"{name}:{number}: no status, or no path")
            is_right = False
    return not is_right


if __name__ == "__main__":
    sys.exit(main(sys.argv[1]))
