#!/usr/bin/env python3
"""Gives the definitions and lemmas of crates/ the spelling of the present Rattle: words in snake case.

usage: python3 tools/port/names.py            at the top of the repository, once, after the toolchain's own port.py

A name turns where it is declared in an .antt file of crates/: the humps of `stepOn` and the dashes of `every-row` become
underscores. Types, facts and modules keep their upper camel case. Where a lemma would get the name of a definition it is given
the ending `_lem`. A name that is imported from the toolchain's libraries stays. What turns: .antt files whole, .rt files whole
(the code has no name of either form), must-fail edits whole, and code spans of the pages in docs/ and README.md.
Functions of src/, exported names, strings, inputs and outputs keep their names. It goes by the older form of proofs (Proof.antt), and stops
where a proof has today's form already, in which goals are declared that it would take for lemmas.
"""

import collections
import os
import re

WORD = re.compile(r'[^\s(){}.;,@"«»]+')
DECLARED = re.compile(r'\s*((?:(?:abbrev|unfoldable|pub|record|data)\s+)*)((?:[^\s(){}.;,@"«»:]+\s+)+):(?:\s|$)')
LET = re.compile(r'(?<![^\s(])let\s+([^\s(){}.;,@"«»:]+)\s+(?::|=)')
KEYWORDS = {"let", "abbrev", "pub", "unfoldable", "record", "data", "ruleset", "module", "where", "in", "use", "mod"}
LIBRARY = re.compile(r"use\s+(?!Rattle\.)[^{;\n]*\{([^}]*)\}|use\s+Rattle\.std\.[^{;\n]*\{([^}]*)\}")
# Lemmas that would fall together with a definition of the same words in a file of their own or of a crate above.
LEMMAS = {
    "late-fines", "cash-terms", "dealt-out", "account-text", "all-days", "awards-fit", "day-number", "net-of", "buy-in-charge",
    "award-fines", "priced-at", "bought-in", "of-kinds", "fee-above", "date-refusal", "first-day", "taken-by", "last-quantity",
    "traded-by", "right-size", "close-charges", "position-text", "ledger-of", "in-cents", "cash-price", "price-number",
    "paired-off", "of-date", "answer-number", "date-value", "day-refusal", "day-value", "fields-of",
}
# Names with this spelling already, in files where a definition gets it: the definition's old name, the name here, and its new one.
WITHIN = {
    "crates/plain/proofs/AwardSteps.antt": ("runsOn", "runs_on", "runs_on_lem"),
    "crates/plain/proofs/Covering.antt": ("runsOn", "runs_on", "runs_on_lem"),
    "crates/plain/proofs/Confirmed.antt": ("runsOn", "runs_on", "runs_on_lem"),
    "crates/page/proofs/Legible.antt": ("inOrder", "in_order", "in_order_lem"),
    "crates/calendar/specs/Decided.antt": ("ofNumber", "of_number", "number_passed"),
}


def texts(*endings):
    for folder, dirs, files in os.walk("crates"):
        dirs[:] = sorted(d for d in dirs if d != "out")
        for f in sorted(files):
            if f.endswith(endings):
                yield os.path.join(folder, f)


def read(path):
    with open(path, encoding="utf-8") as f:
        return f.read()


def code(text):
    return re.sub(r"(?m)(?<![^\s(){}.;,])--.*$", "", text)


def spelled(name):
    if re.fullmatch(r"[A-Z][A-Z0-9-]+", name):
        return name.replace("-", "_")
    if not re.match(r"[a-z]", name):
        return name
    name = name.replace("getD", "get_or").replace("get_d_", "get_or_")
    humps = re.sub(r"(?<=[a-z0-9])([A-Z])(?=[a-z0-9]|$|-|')", lambda m: "_" + m.group(1).lower(), name)
    return humps.replace("-", "_")


def is_function_proof(path):
    parts = path.split(os.sep)
    return parts[2] == "proofs" and len(parts) > 4


def table():
    declared, library = set(), set()
    for path in texts(".antt"):
        text = code(read(path))
        for m in LIBRARY.finditer(text):
            library |= {w for item in (m.group(1) or m.group(2)).split(",") for w in item.split()}
        for line in text.split("\n"):
            m = DECLARED.match(line)
            if m and not (is_function_proof(path) and (": tie." in line or re.search(r"[-_]spec\s*:", line))):
                declared |= {n for n in m.group(2).split() if n not in KEYWORDS}
        declared |= set(LET.findall(text))
    rows = {}
    for name in declared - library - KEYWORDS:
        new = spelled(name)
        if name in LEMMAS:
            new += "_lem"
        if new != name:
            rows[name] = new
    return rows


def turned(text, rows):
    return WORD.sub(lambda m: rows.get(m.group(0), m.group(0)), text)


def main():
    if next(texts("Answers.antt", "Invariants.antt"), None) and any(is_function_proof(p) for p in texts("Answers.antt", "Invariants.antt")):
        raise SystemExit("names.py: a proof has today's form already: nothing was turned")
    rows = table()
    for path in texts(".antt", ".rt", ".edit"):
        own = dict(rows)
        if path in WITHIN and WITHIN[path][0] in rows:
            own[WITHIN[path][1]] = WITHIN[path][2]
        old = read(path)
        new = turned(old, own)
        if path.endswith(".edit"):
            new = re.sub(r"^file:.*$", lambda m: re.search(r"^file:.*$", old, re.M).group(0), new, count=1, flags=re.M)
        if new != old:
            with open(path, "w", encoding="utf-8") as f:
                f.write(new)
    pages = ["README.md"] + [os.path.join(d, f) for d, _, fs in os.walk("docs") for f in sorted(fs) if f.endswith(".md")]
    for path in pages:
        old = read(path)
        new = re.sub(r"`[^`\n]+`", lambda m: turned_span(m.group(0), rows), old)
        if new != old:
            with open(path, "w", encoding="utf-8") as f:
                f.write(new)
    counts = collections.Counter(rows.values())
    for new in sorted(n for n in counts if counts[n] > 1):
        print("together:", new, sorted(n for n in rows if rows[n] == new))
    print(len(rows), "names turned")


def turned_span(span, rows):
    return "`" + turned(span[1:-1], rows) + "`"


if __name__ == "__main__":
    main()
