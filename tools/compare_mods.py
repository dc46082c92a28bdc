#!/usr/bin/env python3
"""ProTracker modules by the program and by a slow reading of docs/MOD.md: the same bytes, or the same
line.

    compare_mods.py PROGRAM [MODULES [DAMAGED]]    so many of each, drawn from numbers: 200 and 1,000
"""
import os
import subprocess
import sys
import tempfile

from drawn_mods import damaged_mod, drawn_mod
from slow_mod import ModFault, read_mod
from slow_writer import written


def slowly(module):
    try:
        return 0, "", written(read_mod(module))
    except ModFault as fault:
        return 3, f"xmstudio: song refused: {fault.line()}\n", None


def quickly(program, module, folder):
    given, out = os.path.join(folder, "given.mod"), os.path.join(folder, "out.xm")
    if os.path.exists(out):
        os.remove(out)
    with open(given, "wb") as file:
        file.write(module)
    ran = subprocess.run([program, "import", given, out], capture_output=True, text=True, check=False)
    written_bytes = None
    if os.path.exists(out):
        with open(out, "rb") as file:
            written_bytes = file.read()
    return ran.returncode, ran.stderr, written_bytes


def compared(program, name, draw, count):
    """How many end with each status, or nothing where one ends otherwise."""
    ends = {}
    with tempfile.TemporaryDirectory() as folder:
        for number in range(count):
            module = draw(number)
            slow, quick = slowly(module), quickly(program, module, folder)
            if slow != quick:
                print(f"{name} {number}: the program says {quick[:2]}, and the slow reader {slow[:2]}")
                return False
            key = " ".join(slow[1].split()[3:6]) or "imported"
            ends[key] = ends.get(key, 0) + 1
    print(f"{count} {name}: the same bytes, or the same line:", ", ".join(f"{ends[key]} {key}" for key in sorted(ends)))
    return True


if __name__ == "__main__":
    counts = [int(word) for word in sys.argv[2:]] + [200, 1000][len(sys.argv) - 2:]
    whole = compared(sys.argv[1], "modules", drawn_mod, counts[0])
    harmed = compared(sys.argv[1], "damaged modules", damaged_mod, counts[1])
    sys.exit(0 if whole and harmed else 1)
