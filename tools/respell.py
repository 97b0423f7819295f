"""Gives the repository's own definitions and lemmas the spelling of today's Rattle: respell.py, at the top of a checkout that port.py has turned.
The table respell.txt beside it has a line for each name, `old new`. Names of src/, exported names, strings and comments stay (but for names in
backticks); a name that a file imports from another library than this repository's stays in that file."""

import glob
import os
import re

HERE = os.path.dirname(os.path.abspath(__file__))
TOKEN = re.compile(r"[^\s(){}\[\].,;:\"`«»@]+")
USE = re.compile(r"^\s*(?:pub )?(?:ghost )?(?:pub )?use ")
OWN = sorted(os.path.basename(p) for p in glob.glob("crates/*"))


def table():
    with open(os.path.join(HERE, "respell.txt")) as f:
        return dict(line.split() for line in f if line.strip())


def is_foreign(line):
    """Whether a use line brings names of another library."""
    path = re.sub(USE, "", line)
    return not any(path.startswith(f"Rattle.{crate}.") for crate in OWN)


def foreign_names(text):
    names = set()
    for line in text.split("\n"):
        if USE.match(line) and is_foreign(line):
            names.update(TOKEN.findall(line))
    return names


def respell_code(code, names):
    return TOKEN.sub(lambda m: names.get(m[0], m[0]), code)


def respell_comment(comment, names):
    return re.sub(r"`([^`]+)`", lambda m: "`" + respell_code(m[1], names) + "`", comment)


def respell_line(line, names, mark):
    """The line with its code respelled; strings stay, and comments but for what stands in backticks."""
    if USE.match(line) and is_foreign(line):
        return line
    at = re.search(r"(?:^|\s)" + re.escape(mark), line)
    code, comment = (line, "") if not at else (line[: at.start()], line[at.start() :])
    parts = re.split(r'("(?:[^"\\]|\\.)*")', code)
    code = "".join(p if p.startswith('"') else respell_code(p, names) for p in parts)
    return code + respell_comment(comment, names)


def respell(path, names, mark):
    with open(path) as f:
        text = f.read()
    kept = foreign_names(text) if path.endswith((".antt", ".rt")) else set()
    here = {old: new for old, new in names.items() if old not in kept}
    new = "\n".join(respell_line(line, here, mark) for line in text.split("\n"))
    if new != text:
        with open(path, "w") as f:
            f.write(new)


def main():
    names = table()
    for path in glob.glob("crates/*/specs/**/*.antt", recursive=True) + glob.glob("crates/*/proofs/**/*.antt", recursive=True):
        respell(path, names, "--")
    for path in glob.glob("crates/*/src/**/*.rt", recursive=True):
        respell(path, names, "//")
    for path in glob.glob("crates/*/must-fail/*.edit") + glob.glob("tests/planted/*/*.edit"):
        respell(path, names, "//")


if __name__ == "__main__":
    main()
