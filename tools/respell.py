#!/usr/bin/env python3
"""Spells the repository's own definitions, lemmas and fields in snake case, and its types in upper camel case, after port.py.

usage: python3 tools/respell.py [FOLDER]      at the top of the repository, once, right after port.py

What specs/, proofs/*.antt and the traits' ghost members declare turns, and so do names that 'as' gives, wherever it stands in .antt files, clauses and ghost items, must-fail edits and
the code spans of README.md and docs/. Names that Rattle makes for goals, steps and labels stay, and so do functions of src/, strings and outputs.
Where a lemma would get the name of a function, it gets `_lem`. A word of the library that port.py has brought in under the name of another
gets its own name back.
"""

import glob
import os
import re
import sys

TOKEN = r'[^\s(){}.;,:@"«»\[\]|`]+'
# Lemmas and fields that would fall together with a definition of the same words.
APART = {
    it: it.replace("-", "_") + "_lem"
    for it in """no-legs lowest-on after-all built-after junction-at column-of tree-look best-up-to leg-between same-entry same-street same-answers
    asked-so as-block as-sheet row-of is-none closed_after on_chain same_length""".split()
} | {"on-map": "all_on_map"}
# A field that falls together in one file alone.
IN_FILE = {"asks/specs/Examples.antt": {"first_round": "first_round_blank"}}
# Types whose names had a dash.
TYPES = {it: "".join(w[0].upper() + w[1:] for w in it.split("-")) for it in "First-removed In-order Kinds-lawful Lines-stand One-reading Refusals-mean".split()}
# Words of the library under another word's name.
LENT = {"AllByRecursion": "All", "ContainsAt": "Has"}
DECLARED = re.compile(r"(?m)^ *(?:(?:pub|abbrev|unfoldable|let|mutual) +)*(?:record +|data +)?(" + TOKEN + r")(?: *[({][^\n]*?[)}])* *(?::|where)(?= |$)(.*)")
GOAL = re.compile(r"(?m)^(?:(?:pub|abbrev) +)*(" + TOKEN + r") : goal\.")
COMMENT = re.compile(r"(?m)(?<!\S)--.*$|(?<![:\S])//.*$")
ANSWERS = re.compile(r"/(?:Answers|Invariants)\.antt$")


def in_snake_case(name):
    return re.sub(r"(?<=[a-z0-9])[A-Z]", lambda m: "_" + m[0].lower(), name).replace("-", "_")


def turns(name):
    return re.fullmatch(r"[a-z][\w'-]*", name) and re.search(r"[a-z0-9][A-Z]|-", name)


def table_of(files):
    names = set()
    for path, text in files.items():
        if path.endswith(".rt"):
            names.update(re.findall(r"ghost (\S+?)\s*:", text))
        elif path.endswith(".antt"):
            for name, rest in DECLARED.findall(COMMENT.sub("", text)):
                if not rest.lstrip().startswith("goal."):
                    names.add(name)
        names.update(re.findall(r" as ([\w-]+)(?=[,}])", text))
    table = {it: in_snake_case(it) for it in names if turns(it)}
    return table | {old: new for old, new in (APART | TYPES).items() if old in names}


def turned(text, table, camel_only=False):
    def one(m):
        word = m[0]
        if word not in table or camel_only and "-" in word:
            return word
        before = text[: m.start()]
        if re.search(r"(?<![\w'.-])(?:goal|c|l)\.$", before) and "-" in word:
            return word
        return table[word]

    return re.sub(TOKEN, one, text)


def code(text, table, comment):
    out, at = [], 0
    for m in COMMENT.finditer(text):
        out += [turned(text[at : m.start()], table), turned(m[0], table, True) if comment else m[0]]
        at = m.end()
    return "".join(out + [turned(text[at:], table)])


def by_own_names(text):
    for word, lent in LENT.items():
        if f"{word} as {lent}" in text:
            text = text.replace(f"{word} as {lent}", word)
            plain = lambda line: line if re.match(r"\s*(--|//)", line) else re.sub(rf"(?<![\w'.-]){lent}(?![\w'-])", word, line)
            text = "\n".join(map(plain, text.split("\n")))
    return text


def main(root):
    paths = [p for end in ("rt", "antt", "edit") for p in glob.glob(f"{root}/crates/**/*.{end}", recursive=True) if "/out/" not in p]
    paths += glob.glob(f"{root}/README.md") + glob.glob(f"{root}/docs/*.md")
    files = {}
    for path in sorted(paths):
        with open(path, encoding="utf-8") as f:
            files[path] = f.read()
    table, changed = table_of(files), 0
    for path, text in files.items():
        here = dict(table)
        for end, rows in IN_FILE.items():
            if path.endswith(end):
                here |= rows
        if path.endswith(".md"):
            new = re.sub(r"`[^`\n]+`", lambda m: turned(m[0], here), text)
        else:
            if path.endswith(".rt"):
                here = {a: b for a, b in here.items() if a in TYPES or turns(a)}
            for items in re.findall(r"\buse Rattle\.std\.[^\n{;]*\{([^}]*)\}", text):
                for name in re.findall(TOKEN, items):
                    here.pop(name, None)
            if ANSWERS.search(path):
                for name in GOAL.findall(text):
                    here.pop(name, None)
            new = by_own_names(code(text, here, True))
        if new != text:
            changed += 1
            with open(path, "w", encoding="utf-8") as f:
                f.write(new)
    print(f"respell: {len(table)} names, {changed} files changed")


if __name__ == "__main__":
    main(os.path.abspath(sys.argv[1] if len(sys.argv) > 1 else "."))
