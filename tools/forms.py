#!/usr/bin/env python3
"""Counts, in src/ and proofs/ of every crate, the places where older forms stand: forms.py [FOLDER] [--list].

Each row is a pattern over lines, or a count over signatures and clauses; --list prints every place. A row is a place to look at, no
verdict: docs/DESIGN-PASS.md says of each place what became of it.
"""
import collections
import itertools
import pathlib
import re
import sys

PATTERNS = {
    "1 number codes: an arm from a variant to a number": r"^\s+\w+::\w+(\(_\))? => \d+,$",
    "1 a search that ends in a 0 for none": r"^    }\n    0$",
    "1 a number for none, as it is tested or answered": r"\bfirst_bad_\w+\(\w*\) != 0|let e = first_bad_|if link == 0|return 0;"
    r"|if \*tail == 0",
    "1 an arm that hands None or Err on, or names a default": r"None => (None|false|0)\b|Err\((\w+)\) => Err\(\2\)|Err\(e\);$",
    "1 a flag beside a value": r"^\s+(pub(\(crate\))? )?(present|settled|filled|named|built): (\[?bool|\[bool)",
    "3 a counter that is moved by hand": r"^\s+\w+(\.\w+)? (\+= 1;|= \w+\.saturating_add\(1\);)",
    "3 a while with an index": r"while [a-z]+ (<|>) |while let Some\(\(\w+, \w+\)\)",
    "3 a for over a range of numbers": r"for \w+ in [^{]*\.\.",
    "3 a loop that is a library method": r"if \*x == |for _ in \w+ \{",
    "4 a conversion or test written by hand": r"fn (number|done|reply|nth_side|bit_of|link_place|is_digit|push_number|some_link|small"
    r"|length_in|closed_entry)\b",
    "4 impl of a derivable trait": r"^impl.* (PartialEq|Eq|PartialOrd|Ord|Clone|Copy|Default|Hash|Debug)\b.* for ",
    "6 a buffer or an index range with its length beside": r"^\s+(pub(\(crate\))? )?(count|named|len): (usize|u16),|\[0\.\.[\w.]+\]",
    "6 parallel arrays": r"^\s+(pub(\(crate\))? )?(settled|slots|lengths|present|transit|positions): \[\w+; \d+\],",
    "7 a function pointer, a table of functions or dyn": r"\bdyn \w|: fn\(|&\[fn",
}


def sources(top):
    for path in sorted(pathlib.Path(top).glob("crates/*/src/**/*.rt")):
        yield path.relative_to(top), path.read_text().split("\n")


def signatures(lines):
    """Each function's name, parameters and clauses."""
    text = "\n".join(lines)
    for m in re.finditer(r"\bfn (\w+)(?:<[^(]*?>)?\(([^)]*(?:\([^)]*\)[^)]*)*)\)([^{;]*?)((?:\s+(?:requires|ensures)[^\n]*)*)\n", text):
        params = [p.strip() for p in re.split(r",(?![^<(\[]*[>)\]])", m.group(2)) if ":" in p]
        clauses = re.findall(r"requires(?: \w+)? \{(.*)\}", m.group(4))
        yield m.group(1), params, clauses


def bodies(lines):
    """Each function's name and the shape of its body: names, numbers and texts left out."""
    for start, line in enumerate(lines):
        m = re.match(r"(\s*)(?:pub(?:\([a-z]+\))? )?fn (\w+)", line)
        if not m or line.rstrip().endswith(";"):
            continue
        heads = itertools.takewhile(lambda k: not lines[k].rstrip().endswith(";"), range(start, len(lines)))
        ends = (k for k in heads if lines[k].rstrip().endswith("{"))
        opened = next((k for k in ends if not re.match(r"\s*(requires|ensures|ghost)\b", lines[k])), None)
        if opened is None:
            continue
        end = next((k for k in range(opened, len(lines)) if lines[k] == m.group(1) + "}"), opened)
        text = " ".join(l for l in lines[opened + 1 : end] if not l.lstrip().startswith("//"))
        tokens = re.findall(r'b?"[^"]*"|[A-Za-z_]\w*|\d[\d_]*|[^\s\w]', text)
        yield m.group(2), tuple("x" if re.match(r"\w|b?\"", t) else t for t in tokens)


def report(top, show):
    found = collections.OrderedDict((name, []) for name in PATTERNS)
    facts = collections.Counter()
    groups = collections.Counter()
    shapes = collections.defaultdict(list)
    for path, lines in sources(top):
        for number, (before, line) in enumerate(zip([""] + lines, lines), 1):
            if line.lstrip().startswith("//"):
                continue
            for name, pattern in PATTERNS.items():
                if re.search(pattern, before + "\n" + line if "\\n" in pattern else line, re.M):
                    found[name].append(f"{path}:{number}: {line.strip()}")
        crate = path.parts[1]
        for name, shape in bodies(lines):
            if len(shape) >= 24:
                shapes[shape].append(f"{path}: {name}")
        for _, params, clauses in signatures(lines):
            parts = {re.sub(r"\.(old|now|new)\b", "", p).strip(" ()") for c in clauses for p in c.split("×")}
            for part in parts:
                facts[crate, part] += 1
            for group in itertools.combinations(sorted(p for p in params if not p.startswith("rt:")), 3):
                groups[crate, group] += 1
    for name, places in found.items():
        print(f"{len(places):4}  {name}")
        if show:
            print("".join(f"        {p}\n" for p in places), end="")
    twins = [places for places in shapes.values() if len(places) > 1]
    print(f"{len(twins):4}  2 functions of one shape, of 24 words and signs or more")
    if show:
        print("".join(f"        {'; '.join(p)}\n" for p in twins), end="")
    fifth = {
        "5 a fact required by three or more functions of a crate": facts,
        "5 three parameters that travel together through three or more functions": groups,
    }
    for name, counter in fifth.items():
        rows = [(k, n) for k, n in counter.items() if n >= 3]
        print(f"{len(rows):4}  {name}")
        if show:
            for (crate, what), n in sorted(rows, key=lambda r: -r[1]):
                print(f"        {crate}: {n} x {what if isinstance(what, str) else ', '.join(what)}")
    answers = lemmas = size = 0
    for path in pathlib.Path(top).glob("crates/*/proofs/**/*.antt"):
        text = path.read_text()
        size += text.count("\n")
        answers += len(re.findall(r"^pub \S+ : goal\.", text, re.M))
        lemmas += len(re.findall(r"^(?:abbrev |unfoldable )?(?:pub )?\S+ : (?!goal\.)", text, re.M))
    print(f"{answers:4}  8 answers to goals\n{lemmas:4}  8 lemmas and definitions in proofs/\n{size:4}  8 lines of proofs/")


report(next((a for a in sys.argv[1:] if not a.startswith("-")), "."), "--list" in sys.argv)
