#!/usr/bin/env bash
# The measures of the sources: a line of a proof has at most 160 columns, each other line of Rattle or Antt at most 100, where lists
# of names (imports, the tactics of a function), entries of tables and texts in quotes do not count; a file stays below 800 lines and the body of a function
# below 40, its tables of data aside; and no two crates have a file of definitions with the same name. Each breach is printed with its file and line.
cd "$(dirname "$0")/.." || exit 1
exec python3 - crates/*/{src,specs,proofs} <<'END'
import os
import re
import sys

NAMES = re.compile(r'^\s*((pub |ghost )?use |#\[tactic\(|\(")')
DATA = re.compile(r'^\s*([(\[\])]|b?"|[0-9]+,$)|\\$')
TEXT = re.compile(r'b?"(\\.|[^"\\])*("|$)')
BEGIN = re.compile(r"^(\s*)(pub(\([a-z ]*\))? )?(const )?(unsafe )?fn (\w+)")
breaches = 0


def breach(file, line, what):
    global breaches
    breaches += 1
    print(f"{file}:{line}: {what}")


def files_below(folder):
    for at, folders, names in os.walk(folder):
        folders.sort()
        yield from (f"{at}/{name}" for name in sorted(names) if name.endswith((".rt", ".antt")))


def check_bodies(file, lines):
    """As the formatter sets a function, its body is from the line that opens its brace, below the contract, to the first line that
    closes one as far to the right as the function begins."""
    name = margin = opened = None
    for number, line in enumerate(lines, 1):
        found = BEGIN.match(line)
        if found and name is None:
            margin, name = found[1], found[6]
        if name is None:
            continue
        if opened is None and (line == f"{margin}{{" or line.endswith(" {") and (found or line.startswith(f"{margin})"))):
            opened = number
        elif opened is not None and line == f"{margin}}}":
            count = sum(not DATA.search(line) for line in lines[opened : number - 1])
            if count >= 40:
                breach(file, opened, f"the body of {name} has {count} lines, and fewer than 40 are allowed")
            name = opened = None
        elif opened is None and (line.endswith((";", "{}")) or line.endswith("}") and found):
            # A function of a trait without a body, or one on one line.
            name = None


first = {}
for folder in sys.argv[1:]:
    part = os.path.basename(folder)
    widest = 160 if part == "proofs" else 100
    for file in files_below(folder):
        with open(file, encoding="utf-8", newline="\n") as it:
            lines = it.read().split("\n")
        if lines[-1] == "":
            lines.pop()
        for number, line in enumerate(lines, 1):
            if not (NAMES.match(line) or line.endswith("\\")) and len(TEXT.sub("", line)) > widest:
                breach(file, number, f"{len(line)} columns, and at most {widest} are allowed")
        if len(lines) >= 800:
            breach(file, len(lines), f"{len(lines)} lines, and fewer than 800 are allowed")
        if file.endswith(".rt"):
            check_bodies(file, lines)
        name = os.path.basename(file)
        if part == "specs" and name not in ("Lib.antt", "Laws.antt"):
            if name in first:
                breach(file, 1, f"the name is that of {first[name]} too")
            first.setdefault(name, file)

print(f"widths: {breaches} breaches" if breaches else "widths: ok")
sys.exit(1 if breaches else 0)
END
