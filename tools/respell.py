#!/usr/bin/env python3
"""Gives the definitions and lemmas of crates/ the spelling of the library: words in snake case.

Run once, at the top, right after the kit's port.py. tools/respell.txt has the names, a line for each: the old name, the new
one, and, where a name means several things, the one file that the line is for. Only whole words are turned, and none in a
string, in a comment outside backticks, or in a path of what the checker makes.
"""

import glob
import re

WORD = r"[^\s(){}\[\];,.:=λ\"`@|]+"


def table():
    everywhere, inside = {}, {}
    with open("tools/respell.txt", encoding="utf-8") as f:
        for line in f:
            w = line.split()
            if not w or w[0] == "#":
                continue
            (inside.setdefault(w[2], {}) if len(w) == 3 else everywhere)[w[0]] = w[1]
    return everywhere, inside


def turned(code, names):
    return re.sub(WORD, lambda m: names.get(m.group(0), m.group(0)), code)


def line_turned(line, comment, names):
    """The line with its names turned: its code, and what stands between backticks in its comment."""
    out, i = "", 0
    while i < len(line):
        if line.startswith(comment, i) and (i == 0 or line[i - 1] in " \t\n"):
            ticks = re.sub(r"`([^`]+)`", lambda m: "`" + names.get(m.group(1), m.group(1)) + "`", line[i:])
            return out + ticks
        if line[i] == '"':
            j = i + 1
            while j < len(line) and line[j] != '"':
                j += 2 if line[j] == "\\" else 1
            out += line[i : j + 1]
            i = j + 1
            continue
        j = i + 1
        while j < len(line) and line[j] != '"' and not (line.startswith(comment, j) and line[j - 1] in " \t"):
            j += 1
        out += turned(line[i:j], names)
        i = j
    return out


def main():
    everywhere, inside = table()
    for pattern, comment in (("crates/*/specs/**/*.antt", "--"), ("crates/*/proofs/**/*.antt", "--"), ("crates/*/src/**/*.rt", "//")):
        for path in sorted(glob.glob(pattern, recursive=True)):
            names = {**everywhere, **inside.get(path, {})}
            with open(path, encoding="utf-8") as f:
                old = f.read()
            new = "".join(line_turned(l, comment, names) for l in old.splitlines(keepends=True))
            if new != old:
                with open(path, "w", encoding="utf-8") as f:
                    f.write(new)
    for path in ["README.md", *sorted(glob.glob("docs/*.md"))]:
        with open(path, encoding="utf-8") as f:
            old = f.read()
        new = re.sub(r"`([^`\n]+)`", lambda m: "`" + turned(m.group(1), everywhere) + "`", old)
        if new != old:
            with open(path, "w", encoding="utf-8") as f:
                f.write(new)


if __name__ == "__main__":
    main()
