"""sbom.py FOLDER CRATE..: writes FOLDER/simd_json.spdx.json, what is linked into these crates as an SPDX 2.3 document: this project, each
library of the toolchain that they use, and the objects in C that go into every program; and the libraries' licenses into
FOLDER/licenses. The same sources and toolchain give the same files."""
import json
import pathlib
import re
import shutil
import sys
import uuid

ROOT = pathlib.Path(__file__).resolve().parent.parent
KIT = pathlib.Path(shutil.which("rt")).resolve().parent.parent
VERSION = ".".join(re.findall(r"^#define SIMD_JSON_VERSION_\w+ (\d+)$", (ROOT / "include/simd_json.h").read_text(), re.M))
UNICODE = "Unicode-3.0"
LICENSES = {"LICENSE-APACHE": "Apache-2.0", "LICENSE-MIT": "MIT", "LICENSE-UNICODE": UNICODE}


def crates():
    """What each crate of the project depends on, by crates.txt."""
    lines = (line.split(":") for line in (ROOT / "crates.txt").read_text().splitlines() if ":" in line and line[0] != "#")
    return {left.split()[0]: right.split() for left, right in lines}


def uses(library):
    """What a library of the toolchain depends on."""
    return re.findall(r"^dep (\w+)$", (KIT / "rlibs" / f"{library}.rlib" / "format").read_text(), re.M)


def linked(names):
    """The libraries of the toolchain that crates use, with all below them."""
    ours, todo, found = crates(), list(names) + ["std"], set()
    while todo:
        name = todo.pop()
        if name not in found:
            found.add(name)
            todo += ours[name] if name in ours else uses(name)
    return sorted(found - ours.keys())


def license_of(readme, folder):
    """As the page of a library says it in parentheses, else by its license files."""
    said = re.search(r"\((MIT|Apache-2\.0)( or (MIT|Apache-2\.0|Apache 2\.0|BSL-1\.0))?[,;)]", readme)
    files = [LICENSES[file.name] for file in sorted(folder.glob("LICENSE-*")) if file.name in LICENSES]
    if said:
        declared = said[0].strip("(,;)").replace("Apache 2.0", "Apache-2.0").replace(" or ", " OR ")
    else:
        declared = " OR ".join(name for name in files if name != UNICODE)
    if UNICODE in files:
        return f"({declared}) AND {UNICODE}" if declared else UNICODE
    return declared or "NOASSERTION"


def package(name, version, declared, comment):
    return {
        "SPDXID": f"SPDXRef-{name.replace('_', '-')}", "name": name, "versionInfo": version, "downloadLocation": "NOASSERTION",
        "filesAnalyzed": False, "licenseConcluded": declared, "licenseDeclared": declared, "copyrightText": "NOASSERTION",
        "comment": comment}


def library(name, version):
    folder = KIT / "rattle" / name
    page = folder / "README.md"
    readme = page.read_text() if page.exists() else ""
    crate = re.search(r"Rust crates? `([\w-]+)` (\d+(?:\.\d+)*)", readme)
    comment = "Library of the Rattle toolchain" + (f", after the Rust crate {crate[1]} {crate[2]}" if crate else "")
    return package(name, version, license_of(readme, folder), comment)


def document(names):
    kit = (KIT / "KIT-ID").read_text().split()[0]
    packages = [package("simd_json", VERSION, "MIT OR Apache-2.0", "Programs, library, header and wrappers")]
    packages += [library(name, kit) for name in linked(names)]
    packages.append(package("rattle-c", kit, "NOASSERTION", "Objects in C of the Rattle toolchain: calls of the system, and the heap"))
    others = [{"spdxElementId": packages[0]["SPDXID"], "relationshipType": "STATIC_LINK", "relatedSpdxElement": each["SPDXID"]}
              for each in packages[1:]]
    return {
        "spdxVersion": "SPDX-2.3", "dataLicense": "CC0-1.0", "SPDXID": "SPDXRef-DOCUMENT", "name": f"simd_json-{VERSION}",
        "documentNamespace": uuid.uuid5(uuid.NAMESPACE_OID, json.dumps(packages)).urn,
        "creationInfo": {"created": "2026-01-01T00:00:00Z", "creators": ["Tool: scripts/sbom.py"]},
        "packages": packages,
        "relationships": [{"spdxElementId": "SPDXRef-DOCUMENT", "relationshipType": "DESCRIBES",
                           "relatedSpdxElement": packages[0]["SPDXID"]}, *others]}


def main(folder, *names):
    folder = pathlib.Path(folder)
    (folder / "simd_json.spdx.json").write_text(json.dumps(document(names), indent=1) + "\n")
    for name in linked(names):
        for file in sorted((KIT / "rattle" / name).glob("LICENSE*")):
            (folder / "licenses" / name).mkdir(parents=True, exist_ok=True)
            shutil.copyfile(file, folder / "licenses" / name / file.name)


if __name__ == "__main__":
    main(*sys.argv[1:])
