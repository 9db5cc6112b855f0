#!/usr/bin/env python3
"""Brings the repository's own definitions and lemmas to the spelling of names that the Rattle kit has:
words in snake case, facts, records and types in camel case. Run once, after the kit's port.py.

usage: python3 tools/snake_names.py [FOLDER]    rewrites crates/, README.md and docs/ of FOLDER (default: this repository)

Functions of src/, strings, inputs, outputs and the goals that Rattle names keep their names. It stops, and changes
nothing, where two definitions of one file would fall together.
"""

import os
import re
import sys

# the names that are defined in specs/ and proofs/, as they were
NAMES = """
At-fault By-message Comes-to Faults-by-message Is-over Is-result Line-stays Not-over Open-until Reads-back
Result-in-time Result-is-last-line Reversals-climb Taps-decide Written-on
after-reversals answers-for at-judge at-report at-show back-after cause-number comes-more comes-none complement-small
digit-back digit-code faults-after faults-at faults-by-message fields-of gives-result in-phase in-time is-due is-emit
judge-faults judged-bounded judged-climbs judged-fits judged-line judged-run just-reached label-fits last-back
last-move-in last-number layer-number line-comes line-exists line-in line-is line-now line-then lines-before message-of
never-faults next-line no-tap no-tap-at now-due now-due-more now-due-none on-chart one-more-line phase-at plain-fields
progress-back progress-in q-is reading-line request-of result-here result-in-time result-is-last-line reversal-once
reversals-are reversals-at reversals-climb reversals-come reversals-from reversals-in reversals-is reversals-now
reversals-of reversals-then short-run shows-next side-number sits-first staircase-shows start-bounded tap-at tap-handed
tap-in taps-decide taps-in then-handed then-more then-none value-fits work-after work-of
""".split()

# the names that port.py itself had respelled: only the pages still have the old ones
RESPELLED = """
after-line after-more after-then all-back item-of left-by line-after line-at line-stays no-cells number-in number-of
one-more out-of-range place-after text-of up-to
""".split()


def new(name):
    words = name.split("-")
    return "".join(w[0].upper() + w[1:] for w in words) if name[0].isupper() else "_".join(words)


def pattern(names):
    words = "|".join(re.escape(n) for n in sorted(names, key=len, reverse=True))
    return re.compile(r"(?<![\w'-])(" + words + r")(?![\w'-])")


def files(top):
    for folder, dirs, names in os.walk(os.path.join(top, "crates")):
        dirs[:] = sorted(d for d in dirs if d not in ("out", "must-fail"))
        for f in sorted(names):
            if f.endswith((".antt", ".rt")):
                yield os.path.join(folder, f)


def pages(top):
    yield os.path.join(top, "README.md")
    for f in ("RULES.md", "DECISIONS.md", "LANDINGS.md"):
        yield os.path.join(top, "docs", f)


def read(path):
    with open(path, encoding="utf-8") as f:
        return f.read()


def write(path, text):
    if text != read(path):
        with open(path, "w", encoding="utf-8") as f:
            f.write(text)


def main():
    top = sys.argv[1] if len(sys.argv) > 1 else os.path.join(os.path.dirname(os.path.abspath(__file__)), "..")
    renamed = {n: new(n) for n in NAMES}
    defined = re.compile(r"^\s*(?:abbrev |pub |unfoldable |data |record )*([\w'-]+) (?:\(.*)?:")
    for path in files(top):
        if path.endswith(".antt"):
            here = [m.group(1) for m in map(defined.match, read(path).split("\n")) if m]
            for name in set(here):
                if renamed.get(name) in here:
                    sys.exit(f"snake_names: {path}: {name} would fall together with {renamed[name]}")
    old = pattern(NAMES)
    for path in files(top):
        write(path, old.sub(lambda m: renamed[m.group(1)], read(path)))
    quoted = pattern(NAMES + RESPELLED)
    for path in pages(top):
        code = lambda m: quoted.sub(lambda n: new(n.group(1)), m.group(0))
        write(path, re.sub(r"`[^`\n]*`", code, read(path)))


main()
