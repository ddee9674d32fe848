"""Every theorem or clause that docs/CLAIMS.md names exists in the file that it names.

A claim is a row of a table whose last cell is a file of crates/ or checks/ in backticks. Each name in backticks in the cell before it must be
declared in that file: in antt as a public law, definition, record, type or constructor, in Rattle as a function or a named clause, in Python as
a function.
"""
import re
from pathlib import Path

ROW = re.compile(r"^\|(.+)\|\s*`((?:crates|checks)/[^`]+)`\s*\|\s*$")


def rows(text):
    """The claims of a page: (line number, names, file)."""
    found = []
    for number, line in enumerate(text.split("\n"), 1):
        match = ROW.match(line)
        if match:
            cell = match.group(1).split("|")[-1]
            found.append((number, re.findall(r"`([^`]+)`", cell), match.group(2)))
    return found


def declares(source, name, suffix):
    """Whether the text of a file declares the name."""
    word = re.escape(name)
    if suffix == ".rt":
        forms = [rf"^\s*pub fn {word}\b", rf"^\s*(ensures|requires) {word} \{{", rf"^\s*pub (struct|enum) {word}\b"]
    elif suffix == ".py":
        forms = [rf"^def {word}\("]
    else:
        forms = [
            rf"^\s*((pattern|unfoldable|abbrev) )*pub {word}( \{{[^}}]*\}})? ?:",
            rf"^\s*(pub )?(record|data) {word}[ \n]",
            rf"^  {word} :",
        ]
    return any(re.search(form, source, re.M) for form in forms)


def faults(text, root):
    """What is wrong with a page of claims, one line each."""
    wrong = []
    claims = rows(text)
    if not claims:
        wrong.append("the page names no theorem")
    for number, names, path in claims:
        file = Path(root) / path
        if not names:
            wrong.append(f"line {number}: no name before {path}")
        elif not file.is_file():
            wrong.append(f"line {number}: there is no file {path}")
        else:
            source = file.read_text()
            wrong += [f"line {number}: {path} does not declare {name}" for name in names if not declares(source, name, file.suffix)]
    return wrong
