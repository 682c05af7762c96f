"""Makes the pictures of README from what they show: docs/house.svg from crates.txt and docs/HOUSE.md, docs/transaction.svg from the
recording examples/day.recording, bench/RESULTS.svg from bench/RESULTS.md.

    python3 -m pictures.make [PICTURE ..]    writes those that are named, as bench/RESULTS.svg, or all
    python3 -m pictures.make --check         writes nothing, and fails where a picture is not what would be made now
"""

import sys

from examples.make import described
from pictures import chart, house, transaction
from pictures.pages import ROOT, BadPage, read


def made_house():
    programs = {path.parent.parent.name for path in ROOT.glob("crates/*/src/main.rt")}
    return house.picture(read("crates.txt"), read("docs/HOUSE.md"), programs)


def made_transaction():
    source = "examples/day.recording"
    return transaction.picture((ROOT / source).read_bytes(), described()["recording"]["day"], source)


def made_chart():
    return chart.picture(read("bench/RESULTS.md"))


PICTURES = {"docs/house.svg": made_house, "docs/transaction.svg": made_transaction, "bench/RESULTS.svg": made_chart}


def faults(folder):
    """What is wrong with the pictures in a folder that has them in their places."""
    for name, made in PICTURES.items():
        kept = folder / name
        try:
            if not kept.exists() or kept.read_bytes() != made().encode("utf-8"):
                yield f"{name} is not what would be made now: python3 -m pictures.make writes it"
        except BadPage as fault:
            yield f"{name} cannot be made: {fault}"


def write(names):
    for name in names:
        try:
            (ROOT / name).write_bytes(PICTURES[name]().encode("utf-8"))
        except BadPage as fault:
            sys.exit(f"pictures: {name} cannot be made: {fault}")


def main(words):
    if words == ["--check"]:
        found = list(faults(ROOT))
        for fault in found:
            print(f"pictures: {fault}", file=sys.stderr)
        return 1 if found else 0
    if not set(words) <= set(PICTURES):
        sys.exit(__doc__)
    write(words or PICTURES)
    return 0


if __name__ == "__main__":
    sys.exit(main(sys.argv[1:]))
