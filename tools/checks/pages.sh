#!/usr/bin/env bash
# The pages stay short enough to be read: README has at most 1,500 words, and no cell of a table on
# any page more than 60. The table of edits that must be refused on docs/MAP.md counts what is there.
set -u
cd "$(dirname "$0")/../.." || exit 1
python3 - <<'END'
import pathlib
import re
import sys

failed = []
pages = [pathlib.Path("README.md"), *sorted(pathlib.Path("docs").glob("*.md"))]
words = len(pages[0].read_text().split())
if words > 1500:
    failed.append(f"README.md has {words} words, more than 1,500")
for page in pages:
    for number, line in enumerate(page.read_text().splitlines(), 1):
        if not line.startswith("|"):
            continue
        for cell in re.split(r"(?<!\\)\|", line)[1:-1]:
            if len(cell.split()) > 60:
                failed.append(f"{page}:{number}: a cell of {len(cell.split())} words")

# crate: how many edits are in the gate, and how many are planted
count = lambda folder: len(list(pathlib.Path(folder).glob("*.edit")))
there = {}
for crate in sorted(pathlib.Path("crates").iterdir()):
    counts = count(crate / "must-fail"), count(pathlib.Path("tools/planted") / crate.name)
    if any(counts):
        there[crate.name] = counts
    if counts[0] > 2:
        failed.append(f"{crate.name} has {counts[0]} edits in the gate, more than 2")
row = re.compile(r"\| `(\w+)` \| (\d+|-) \| (\d+|-) \|")
number = lambda text: 0 if text == "-" else int(text)
told = {name: (number(gate), number(planted)) for name, gate, planted in row.findall(pathlib.Path("docs/MAP.md").read_text())}
for name in sorted(there.keys() | told.keys()):
    if there.get(name) != told.get(name):
        failed.append(f"docs/MAP.md: edits of {name}: {told.get(name)}, and there are {there.get(name)}")

print("\n".join(failed) or "the pages are short, and count the edits that are there")
sys.exit(1 if failed else 0)
END
