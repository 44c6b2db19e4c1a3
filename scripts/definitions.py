#!/usr/bin/env python3
"""Makes docs/DEFINITIONS.md of the prose that stands above each definition in crates/*/specs.

definitions.py          writes the page
definitions.py --check  says whether the page is behind, or a definition has no prose; then it ends with status 1
"""

import re
import sys
from pathlib import Path

TOP = Path(__file__).resolve().parent.parent
PAGE = TOP / "docs" / "DEFINITIONS.md"

HEAD = """# Definitions

What the contracts cite, read aloud: each definition of the crates' `specs/` with the prose that stands above it there, and its source in brackets. `C17` is ISO/IEC 9899:2018. The page is made by `scripts/definitions.py`; `scripts/definitions.py --check` says whether it is behind.

The crates come lowest first. Within a crate a file speaks of one subject; a file whose name ends in `View` says what the definitions see of the program's own types.
"""

DEFINED = re.compile(
    r"^( *)(?:abbrev pub|unfoldable pub|pub record|pub data|pub abbrev|pub unfoldable|pub)\s+"
    r"(?!mod |use )([^\s:({]+)\s*(?=[:({])"
)


def crates():
    """The crates of crates.txt, in order."""
    lines = (TOP / "crates.txt").read_text().splitlines()
    return [line.split(":")[0].strip() for line in lines if line.strip() and not line.startswith("#")]


def prose_above(lines, at):
    """The comment that ends right above a line, as one text."""
    first = at
    while first > 0 and re.match(r"^\s*-- (?!----)", lines[first - 1]):
        first -= 1
    return " ".join(line.strip()[3:].strip() for line in lines[first:at])


def of_file(path):
    """The prose of a file, and each definition in it with its own."""
    lines = path.read_text().splitlines()
    end = 0
    while end < len(lines) and lines[end].startswith("-- "):
        end += 1
    rows, heading, group = [], "", ""
    in_record = False
    for at, line in enumerate(lines):
        if re.match(r"^(abbrev )?mutual\b", line):
            group = prose_above(lines, at)
        found = DEFINED.match(line)
        if found is None:
            in_record = in_record and (line.startswith("  ") or not line.strip())
            continue
        indent, name = found.groups()
        if indent and in_record:
            continue
        in_record = not indent and ("pub record" in line or "pub data" in line)
        if indent and not re.match(r"^  pub (?:data |record )?\S+ ?:", line):
            continue
        said = prose_above(lines, at)
        if indent and group:
            said, group = (group + " " + said).strip(), ""
        rows.append((name, said))
    return " ".join(line[3:].strip() for line in lines[:end]), rows


def sentence(text):
    """A text that begins with a capital letter and ends with a full stop."""
    text = text.strip()
    if text and text[0].islower():
        text = text[0].upper() + text[1:]
    return text if not text or text[-1] in ".:" else text + "."


def page():
    """The page, and the definitions that have no prose."""
    out, bare = [HEAD], []
    for crate in crates():
        files = sorted((TOP / "crates" / crate / "specs").glob("*.antt"))
        files = [path for path in files if path.stem != "Lib"]
        if not files:
            continue
        out.append(f"## `{crate}`\n")
        for path in files:
            said, rows = of_file(path)
            out.append(f"### {path.stem}\n\n{sentence(said)}\n")
            if rows:
                out.append("| Definition | Says |\n|---|---|")
                for name, text in rows:
                    if not text:
                        bare.append(f"{crate}/specs/{path.name}: {name}")
                    out.append(f"| `{name}` | {sentence(text).replace('|', chr(92) + '|')} |")
                out.append("")
    return "\n".join(out).rstrip() + "\n", bare


def main():
    text, bare = page()
    if sys.argv[1:] == ["--check"]:
        for name in bare:
            print(f"no prose: {name}")
        behind = not PAGE.exists() or PAGE.read_text() != text
        if behind:
            print("docs/DEFINITIONS.md is behind: run scripts/definitions.py")
        sys.exit(1 if bare or behind else 0)
    PAGE.write_text(text)
    for name in bare:
        print(f"no prose: {name}")


main()
