"""Builds the wheel with a C compiler and nothing else: `make wheel`, or `pip install python/` where the library is built.

The library is that of the folder SIMD_JSON_LIB_DIR, or else of `build`, and with it that of SIMD_JSON_V3_LIB_DIR for processors
that have x86-64-v3, if that is given; the version is the header's."""
import base64
import hashlib
import os
import pathlib
import re
import shlex
import subprocess
import sysconfig
import tempfile
import zipfile

HERE = pathlib.Path(__file__).resolve().parent
ROOT = HERE.parent
LIBRARY = pathlib.Path(os.environ.get("SIMD_JSON_LIB_DIR") or ROOT / "build")
FASTER = os.environ.get("SIMD_JSON_V3_LIB_DIR")
HEADER = (ROOT / "include" / "simd_json.h").read_text()
VERSION = ".".join(re.findall(r"^#define SIMD_JSON_VERSION_\w+ (\d+)$", HEADER, re.M))
NAME, TAG = "simd_json", "cp310-abi3-manylinux_2_31_x86_64"
METADATA = f"""Metadata-Version: 2.1
Name: {NAME}
Version: {VERSION}
Summary: JSON by a parser whose results are proved
License: MIT OR Apache-2.0
Requires-Python: >=3.10
Classifier: Programming Language :: Python :: 3
Classifier: Operating System :: POSIX :: Linux
Description-Content-Type: text/markdown

{(HERE / "README.md").read_text()}"""
WHEEL = f"Wheel-Version: 1.0\nGenerator: simd_json\nRoot-Is-Purelib: false\nTag: {TAG}\n"


def run(*command):
    subprocess.run([str(word) for word in command], check=True)


def compiled():
    """The bytes of the extension module, with the static library in it."""
    compiler = shlex.split(os.environ.get("CC", "cc")) + [
        "-O2", "-Wall", "-Wextra", "-Werror", "-fPIC", "-fvisibility=hidden",
        "-I" + sysconfig.get_paths()["include"], f"-I{ROOT}/include"]
    with tempfile.TemporaryDirectory() as name:  # the library's folder may be another's
        folder = pathlib.Path(name)
        if FASTER:
            levels = {"v2": LIBRARY, "v3": pathlib.Path(FASTER)}
            parts = [part(folder, *level, compiler) for level in levels.items()]
            parts.append(HERE / "start.c")
        else:
            parts = [HERE / "native.c", LIBRARY / "libsimd_json.a"]
        out = folder / "_native.abi3.so"
        run(*compiler, "-shared", "-s", "-Wl,-z,relro,-z,now", *parts, "-o", out)
        return out.read_bytes()


def part(folder, level, library, compiler):
    """The module with the library of a level in it, which shows nothing but how it begins."""
    module, whole = folder / f"native_{level}.o", folder / f"module_{level}.o"
    run(*compiler, f"-DPyInit__native=begin_{level}", "-c", HERE / "native.c", "-o", module)
    run("ld", "-r", module, library / "libsimd_json.a", "-o", whole)
    run("objcopy", f"--keep-global-symbol=begin_{level}", whole)
    return whole


def record(name, data):
    digest = base64.urlsafe_b64encode(hashlib.sha256(data).digest()).rstrip(b"=").decode()
    return f"{name},sha256={digest},{len(data)}\n"


def build_wheel(wheel_directory, config_settings=None, metadata_directory=None):
    info = f"{NAME}-{VERSION}.dist-info"
    files = {f"simd_json/{path.name}": path.read_bytes() for path in sorted((HERE / "simd_json").glob("*.py*")) if path.is_file()}
    files["simd_json/py.typed"] = b""
    files["simd_json/_native.abi3.so"] = compiled()
    files[f"{info}/METADATA"] = METADATA.encode()
    files[f"{info}/WHEEL"] = WHEEL.encode()
    for license_file in ("LICENSE-MIT", "LICENSE-APACHE"):
        files[f"{info}/{license_file}"] = (ROOT / license_file).read_bytes()
    files[f"{info}/RECORD"] = ("".join(record(*file) for file in files.items()) + f"{info}/RECORD,,\n").encode()
    name = f"{NAME}-{VERSION}-{TAG}.whl"
    with zipfile.ZipFile(pathlib.Path(wheel_directory) / name, "w", zipfile.ZIP_DEFLATED) as wheel:
        for path, data in files.items():
            entry = zipfile.ZipInfo(path, (2026, 1, 1, 0, 0, 0))
            entry.external_attr = 0o644 << 16
            wheel.writestr(entry, data, zipfile.ZIP_DEFLATED)
    return name


if __name__ == "__main__":
    import sys

    print(build_wheel(sys.argv[1]))
