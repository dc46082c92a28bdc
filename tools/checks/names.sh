#!/usr/bin/env bash
# One name has one meaning: no two definitions in specs/ share a name, and none has the name of another
# crate's public type, nor two crates' public types one name. Two that do for a good reason have a line
# of it below. Prints each other such name with its places, and ends with 1 where there is one.
set -u
cd "$(dirname "$0")/../.." || exit 1
python3 - <<'END'
import collections
import pathlib
import re
import sys

REASONS = {
    "bit": "1 for true and 0 for false, in both",
    "follow": "one reading after another, for each kind of reading",
    "give": "a value for which nothing is read, for each kind of reading",
    "word": "the next word seen as a value, for each kind of reading",
    "◌>>=◌": "the notation `do` wants it under this name, for each kind of reading",
    "Sizes": "types: the sizes that a header gives, and those of a register; no file cites both",
}

HEAD = re.compile(r"(?:(?:abbrev|unfoldable|record|data|opaque|pub)\s+)+([^\s:(]+)")
KIND = re.compile(r"(?:pub\s+)?(?:abbrev|unfoldable|record|data|opaque)\s")
TYPE = re.compile(r"pub (?:struct|enum|trait|type) (\w+)")

places = collections.defaultdict(list)
for path in sorted(pathlib.Path("crates").glob("*/specs/**/*.antt")):
    for number, line in enumerate(path.read_text().splitlines(), 1):
        if KIND.match(line):
            places[HEAD.match(line).group(1)].append(f"{path}:{number}")
for root in sorted(pathlib.Path("crates").glob("*/src/lib.rt")):
    exported = set(re.findall(r"\w+", " ".join(re.findall(r"pub use ([^;]*);", root.read_text()))))
    for path in sorted(root.parent.rglob("*.rt")):
        for number, line in enumerate(path.read_text().splitlines(), 1):
            found = TYPE.match(line)
            if found and found.group(1) in exported:
                places[found.group(1)].append(f"{path}:{number}")

twice = {name: found for name, found in places.items() if len(found) > 1}
for name in sorted(REASONS.keys() - twice.keys()):
    print(f"{name} stands once: its reason can go")
wrong = sorted(twice.keys() - REASONS.keys())
for name in wrong:
    print(f"{name}:", *twice[name], sep="\n    ")
print(f"{len(wrong)} names with two meanings" if wrong else "each name has one meaning")
sys.exit(1 if wrong else 0)
END
