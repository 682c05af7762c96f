"""Respells the repository's own names as today's Rattle spells them; run once, after port.py (docs/PORT.md).

usage: python3 -m tools.respell            at the top of the repository
       python3 -m tools.respell --table    prints what it would respell, one pair a line

tools/respell.tsv has the names, made by --table of the last landed tree and of the unlanded one behind it; tools/respell_prose.tsv those and the
names that port.py respells, for pages. Words are in snake case: `spanAt` is `span_at`, and a dash between words becomes an underscore (`end-place`, `end_place`). A name that begins with
a type keeps the dash behind it (`Bytes-append`). Names of src/, of generated modules and of the library stay.
"""

import collections
import glob
import os
import re
import sys

NAME = r"[^\s(){}.;,@\"«»\[\]\\`]+"
DECLARED = re.compile(r"^\s*(?:(?:abbrev|unfoldable|pub|private)\s+)*(" + NAME + r")((?:\s+(?:" + NAME + r"))*) :(?:\s|$)")
USED = re.compile(r"^\s*(?:pub )?(?:ghost )?use ([^{;\s]+)(?:\.\{([^}]*)\})?")
TOKEN = re.compile(r"--[^\n]*|//[^\n]*|\"(?:[^\"\\\n]|\\.)*\"|" + NAME)
WORDS = "data record where module use open let in elim as rw pub abbrev unfoldable mod".split()
# What Rattle makes: goals, invariants and steps of a proof file.
MADE = re.compile(r"^(invariant|decreases|loop|returns|ghost|Need|After|Then|Else|At|In)(-|$)|-requires(-\d+)?$|-(init|preserved|smaller)$|-(pos|neg)-|^(add|sub|mul|cast|shl|shr|div|rem)-[a-z0-9_]+(-\d+)?$")


def read(path):
    with open(path, encoding="utf-8") as it:
        return it.read()


def sources(top, kind):
    return sorted(f for f in glob.glob(f"{top}/crates/*/{kind}/**/*.antt", recursive=True) if "/out/" not in f)


def respelled(name):
    """The name in snake case; of a type's name with a dash the type stays."""
    if not re.match(r"[a-z]", name):
        return name
    parts = re.sub(r"(?<=[a-z0-9])([A-Z]+)(?=[a-z])|(?<=[a-z0-9])([A-Z]+)$", lambda m: "_" + m.group(0).lower(), name)
    parts = re.sub(r"(?<=[a-z0-9])([A-Z])", lambda m: "_" + m.group(0).lower(), parts)
    return re.sub(r"-(?=[a-z0-9])", "_", parts)


def declared(top):
    """The names that specs/ and the laws declare, with the file of each; a function's own proof file declares none."""
    names = collections.defaultdict(set)
    for path in sources(top, "specs") + sources(top, "proofs"):
        own = os.path.basename(path) in ("Proof.antt", "Answers.antt", "Invariants.antt")
        for line in read(path).splitlines():
            m = DECLARED.match(line)
            if m and m.group(1) not in WORDS and not own:
                names[m.group(1)].add(path)
                for more in m.group(2).split():
                    if re.fullmatch(NAME, more):
                        names[more].add(path)
    return names


def foreign(top):
    """The names that files import from the library."""
    names = set()
    for path in sources(top, "specs") + sources(top, "proofs") + sorted(glob.glob(f"{top}/crates/*/src/**/*.rt", recursive=True)):
        for line in read(path).splitlines():
            m = USED.match(line)
            if m and m.group(2) and not re.match(r"Rattle\.(?!std\b|core\b)", m.group(1)):
                names |= {it.strip().split(" as ")[-1] for it in m.group(2).split(",")}
    return names


# A lemma that a definition would meet under one name in these files takes its dash back.
APART = [
    ("crates/settings/proofs/Accepted.antt", "best_of"),
    ("crates/copying/proofs/Runs.antt", "by_front"),
    ("crates/wire/proofs/laws/Told.antt", "nth_in"),
    ("crates/panel/proofs/Tested.antt", "on_step"),
    ("crates/wire/proofs/RowWords.antt", "row_word"),
    ("crates/network/proofs/FromSound.antt", "start_word"),
    ("crates/network/proofs/PacketRefused.antt", "whole_fields"),
]


def table(top):
    """Old and new names. A lemma keeps its dash where its new name is another's."""
    library = foreign(top)
    all_names = declared(top)
    fields = {f for p in glob.glob(f"{top}/crates/*/src/**/*.rt", recursive=True) for s in re.findall(r"struct \w+[^{;]*\{([^}]*)\}", read(p)) for f in re.findall(r"(\w+):", s)}
    turned = {n: respelled(n) for n in all_names if respelled(n) != n and n not in library and not MADE.search(n)}
    words = {new for old, new in turned.items() if "-" not in old}
    return {old: new for old, new in turned.items() if "-" not in old or new not in words | set(all_names) | fields | library}


def turn(text, names, prose):
    """The text with the names respelled; in prose, and in comments, only what stands between backticks."""

    def name(m):
        return names.get(m.group(0), m.group(0))

    def quoted(t):
        return re.sub(r"`[^`\n]*`", lambda m: re.sub(NAME, name, m.group(0)), t)

    if prose:
        return quoted(text)
    return TOKEN.sub(lambda m: quoted(m.group(0)) if m.group(0)[:2] in ("--", "//") and len(m.group(0)) > 2 else m.group(0) if m.group(0)[0] == '"' else name(m), text)


def main(argv):
    if argv == ["--table"]:
        for old, new in sorted(table(".").items()):
            print(f"{old}\t{new}")
        return
    names, told = (dict(line.split("\t") for line in read(f"tools/{table}.tsv").splitlines()) for table in ("respell", "respell_prose"))
    code = sources(".", "specs") + sources(".", "proofs") + sorted(glob.glob("crates/*/src/**/*.rt", recursive=True))
    edits = sorted(glob.glob("crates/*/must-fail/*.edit") + glob.glob("wrong/*.edits"))
    # docs/ASK.md speaks of questions, whose words stay.
    prose = sorted(set(glob.glob("*.md") + glob.glob("docs/**/*.md", recursive=True) + glob.glob("rust/**/*.md", recursive=True)) - {"docs/ASK.md"})
    for path, name in APART:
        if os.path.exists(path):
            text = re.sub(r"(?<![\w.-])" + name + r"(?![\w-])", name.replace("_", "-"), read(path))
            with open(path, "w", encoding="utf-8") as it:
                it.write(text)
    changed = 0
    for path in code + edits + prose:
        old = read(path)
        new = turn(old, told if path in prose else names, path in prose)
        if new != old:
            changed += 1
            with open(path, "w", encoding="utf-8") as it:
                it.write(new)
    print(f"respell: {len(names)} names, {changed} files changed")


if __name__ == "__main__":
    main(sys.argv[1:])
