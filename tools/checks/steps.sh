#!/usr/bin/env bash
# What a pass of the register notes of its atomic steps is all that it makes. So the table of words is
# called in src/table.rt of ft_shared alone, where each function makes one call, and each that is given
# a count of steps counts one. Prints each breach, and ends with 1 where there is one.
set -u
cd "$(dirname "$0")/../.." || exit 1
python3 - <<'END_OF_CHECK'
import pathlib
import re
import sys

SOURCES = pathlib.Path("crates/ft_shared/src")
CLAUSE = re.compile(r"\b(?:requires|ensures|ghost)\b[^{;]*\{")
COMMENT = re.compile(r"//[^\n]*")
# What a caller of the table names: the table itself, its shared half, and its atomic calls.
REACH = re.compile(
    r"\.\s*table\b|\bTable\b|\bpeek\b|\b(?:raw|compare_exchange|fetch_sub|fetch_and|fetch_or"
    r"|fetch_xor|load_new_seat|swap_new_seat|exchange)\b"
)
TICK = re.compile(r"\btick\s*\(")
CALL = re.compile(r"\bself\s*\.\s*table\b|\bTable\s*::")
FUNCTION = re.compile(r"\bfn\s+(\w+)")


def without_clauses(text):
    """The text with comments and the bodies of clauses blanked, line for line."""
    text = COMMENT.sub("", text)
    at = 0
    while found := CLAUSE.search(text, at):
        end, depth = found.end(), 1
        while depth and end < len(text):
            depth += {"{": 1, "}": -1}.get(text[end], 0)
            end += 1
        inside = text[found.end() : end - 1]
        text = text[: found.end()] + re.sub(r"[^\n]", " ", inside) + text[end - 1 :]
        at = end
    return text


def line_of(text, at):
    return text.count("\n", 0, at) + 1


def functions(text):
    """Each function's name, the line it begins on, and its text up to the next one."""
    starts = list(FUNCTION.finditer(text))
    for n, start in enumerate(starts):
        end = starts[n + 1].start() if n + 1 < len(starts) else len(text)
        yield start.group(1), line_of(text, start.start()), text[start.start() : end]


found = []
table = SOURCES / "table.rt"
for path in sorted(SOURCES.rglob("*.rt")):
    if path == table:
        continue
    text = without_clauses(path.read_text())
    for pattern, what in ((REACH, "reaches the table"), (TICK, "counts a step")):
        for hit in pattern.finditer(text):
            found.append(f"{path}:{line_of(text, hit.start())}: {what} outside table.rt: {hit.group(0)}")
for name, line, text in functions(without_clauses(table.read_text())):
    calls, ticks = len(CALL.findall(text)), len(TICK.findall(text))
    if calls != 1:
        found.append(f"{table}:{line}: {name} calls the table {calls} times, and not once")
    if ticks != ("Steps<" in text):
        found.append(f"{table}:{line}: {name} counts {ticks} steps")
print("\n".join(found) or "each atomic step of the register has one function, which counts it")
sys.exit(1 if found else 0)
END_OF_CHECK
