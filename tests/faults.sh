#!/usr/bin/env bash
# Each fault of docs/FAULTS.md (or of the file given) is given by the smallest file of its section, and no longer after the cure.
#
# The index of that page has a row `| CODE | TEXT | .. |` for each fault, and each fault has a section `## CODE TEXT` with fenced
# blocks, which are done in their order, each section in a new folder:
#   ```file NAME     the content of a file, where → stands for a tab, and ␍ at the end of a line for a carriage return
#   ```python NAME   a Python expression that gives the content of a file
#   ```run WORDS     runs `xsubpp WORDS`; the content is all that comes on the error stream
#   ```cure NAME     the content of a file in the place of the one before; the last run, done again, no longer gives the fault
#   ```text          a C text that no command reads yet
#   ```line          its fault, `LINE: CODE TEXT` and maybe `: WORD`; the tests of the crates give it, so here it need only be there
set -u
top=$(cd "$(dirname "${BASH_SOURCE[0]}")/.." && pwd)
exec python3 - "$top/xsubpp" "${1:-$top/docs/FAULTS.md}" <<'END'
import os
import re
import shlex
import subprocess
import sys
import tempfile

program, page = sys.argv[1:]
FENCE = re.compile(r"^(`{3,})([^`]*)$")
NAMED = ("file", "python", "run", "cure")
failures = []


def fail(line, what):
    failures.append(line)
    print(f"faults: {os.path.basename(page)}:{line}: {what}")


def read_page():
    """Returns the index, as texts by their codes, and the sections: the line, code, text and blocks of each. A block is its line, word, name and content."""
    index, sections, fence = {}, [], None
    section = None
    with open(page, encoding="utf-8") as it:
        lines = it.read().split("\n")
    for number, line in enumerate(lines, 1):
        if fence:
            found = FENCE.match(line)
            if found and len(found[1]) >= len(fence) and not found[2].strip():
                if section:
                    section[3].append((begin, word, name, content))
                fence = None
            else:
                content.append(line)
            continue
        found = FENCE.match(line)
        if found:
            fence, begin, content = found[1], number, []
            word, _, name = found[2].strip().partition(" ")
            continue
        row = re.match(r"\|\s*(\d+)\s*\|\s*(.*?)\s*\|", line)
        if row and not section:
            if row[1] in index:
                fail(number, f"{row[1]} is in the index twice")
            index[row[1]] = row[2].strip("`")
        if re.match(r"##? ", line):
            heading = re.match(r"## (\d+) (.*?)\s*$", line)
            section = (number, heading[1], heading[2], []) if heading else None
            sections += [section] if section else []
    if fence:
        fail(begin, "a fence is open at the end")
    return index, sections


def bytes_of(word, content):
    """Returns the content of a file."""
    if word == "python":
        given = eval("(" + "\n".join(content) + "\n)", {})
        return given.encode() if isinstance(given, str) else bytes(given)
    ended = (re.sub("␍$", "\r", it.replace("→", "\t")) for it in content)
    return "".join(f"{it}\n" for it in ended).encode()


def run(words, folder):
    """Returns the status of a run, and the program's error stream without the line of the launcher."""
    ran = subprocess.run([program, *words], cwd=folder, stdin=subprocess.DEVNULL, stdout=subprocess.DEVNULL, stderr=subprocess.PIPE)
    return ran.returncode, re.sub(r"\Axsubpp: .*\n", "", ran.stderr.decode(errors="replace"))


def is_fault(text, code, line):
    return re.match(rf".+:\d+: {code} {re.escape(text)}(: .+)?\n?\Z", line) is not None


def do_blocks(code, text, blocks, folder):
    """Does a section's blocks, and returns how many runs gave the fault, how many cures helped, and how many texts have a line."""
    given = cured = found = 0
    words, last = None, ""
    for line, word, name, content in blocks:
        if word not in (*NAMED, "text", "line"):
            fail(line, f"a fence here begins with file, python, run, cure, text or line, and not with {word or 'nothing'}")
        elif bool(name) != (word in NAMED):
            fail(line, f"{word} {'needs a name' if word in NAMED else 'has no name'}")
        elif word in ("file", "python", "cure"):
            if word == "cure" and not os.path.isfile(f"{folder}/{name}"):
                fail(line, f"there is no file {name} to cure")
                continue
            try:
                data = bytes_of(word, content)
            except Exception as error:
                fail(line, f"the expression gives no content: {error}")
                continue
            os.makedirs(os.path.dirname(f"{folder}/{name}"), exist_ok=True)
            with open(f"{folder}/{name}", "wb") as it:
                it.write(data)
            if word == "cure" and words is None:
                fail(line, "no run stands before this cure")
            elif word == "cure":
                status, err = run(words, folder)
                other = re.match(rf".+:\d+: (?!{code} )\d+ .*\n\Z", err)
                if not (status == 0 and err == "" or status == 1 and other):
                    fail(line, f"the cure of {code} gives status {status}: {err.strip()}")
                else:
                    cured += 1
        elif word == "run":
            words = shlex.split(name)
            status, err = run(words, folder)
            wanted = "".join(f"{it}\n" for it in content)
            if err != wanted:
                fail(line, f"xsubpp {name} gives status {status} and {err.strip()!r}, and not {wanted.strip()!r}")
            elif is_fault(text, code, err) and status != 1:
                fail(line, f"xsubpp {name} gives status {status}, and not 1")
            else:
                given += is_fault(text, code, err)
        elif word == "line":
            wanted = "\n".join(content)
            if last != "text":
                fail(line, "no text stands before this line")
            elif not re.match(rf"\d+: {code} {re.escape(text)}(: .+)?\Z", wanted):
                fail(line, f"this is no line of {code} {text}")
            else:
                found += 1
        if last == "text" and word != "line":
            fail(line, "a text before this has no line")
        last = word
    if last == "text":
        fail(blocks[-1][0], "this text has no line")
    return given, cured, found


index, sections = read_page()
if not index:
    fail(1, "there is no index, of rows | CODE | TEXT | .. |")
counts = {"runs": 0, "cures": 0, "texts": 0}
seen = set()
for number, code, text, blocks in sections:
    if code in seen:
        fail(number, f"{code} has two sections")
    seen.add(code)
    if code not in index:
        fail(number, f"{code} is not in the index")
    elif index[code] != text:
        fail(number, f"the index says {code} {index[code]}")
    with tempfile.TemporaryDirectory(prefix="faults-") as folder:
        given, cured, found = do_blocks(code, text, blocks, folder)
    if not given and not found:
        fail(number, f"no run here gives {code}, and no text has its line")
    for key, more in zip(counts, (given, cured, found)):
        counts[key] += more
for code in sorted(set(index) - seen, key=int):
    fail(1, f"{code} {index[code]} is in the index and has no section")

print(f"faults: {len(seen)} faults: {counts['runs']} runs gave their fault and {counts['cures']} cures helped; {counts['texts']} texts were only found")
print(f"faults: {len(failures)} failures" if failures else "faults: ok")
sys.exit(1 if failures else 0)
END
