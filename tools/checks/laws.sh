#!/usr/bin/env bash
# Laws are the only door between crates: no crate of this repository cites the proofs of another. What
# a crate needs of one below it is a clause, or a law that is called. Definitions stand apart from
# proofs: the laws of an `impl` may cite nothing but specs/, so what they rest on is proved in a file
# of specs/ whose name ends in Laws, and no other crate cites that. Prints each line against this, and
# ends with 1 where there is one.
set -u
cd "$(dirname "$0")/../.." || exit 1
python3 - <<'END'
import pathlib
import re
import sys

CITED = re.compile(r"\bRattle\.(\w+)\.(?:proofs|specs\.\w+Laws(?=[ .]))\b")
# a fact that is proved begins with its name, and a definition with what kind it is of
PROVED = re.compile(r"(pub )?[\w-]+ :")

own = {path.parent.name for path in pathlib.Path("crates").glob("*/src")}
found = []
for folder in sorted(pathlib.Path("crates").iterdir()):
    for part in ("src", "specs", "proofs"):
        for path in sorted((folder / part).rglob("*")):
            if path.suffix not in (".rt", ".antt"):
                continue
            for number, line in enumerate(path.read_text().splitlines(), 1):
                for name in CITED.findall(line):
                    if name in own and name != folder.name:
                        found.append(f"{path}:{number}: {line.strip()}")
                if part == "specs" and PROVED.match(line) and not re.fullmatch(r"\w+Laws", path.stem):
                    found.append(f"{path}:{number}: a proof among definitions: {line.strip()}")
print("\n".join(found) or "no crate cites the proofs of another")
sys.exit(1 if found else 0)
END
