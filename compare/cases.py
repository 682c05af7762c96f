"""All cases, for a seed. The questions take turns, short cases and random ones alternate, so that any count has some of all."""

import random

from compare.cases_datasets import DATASET_CASES
from compare.cases_mending import MENDING_CASES
from compare.cases_network import NETWORK_CASES
from compare.cases_panel import PANEL_CASES
from compare.cases_recording import RECORDING_CASES
from compare.cases_session import SESSION_CASES
from compare.cases_settings import SETTINGS_CASES
from compare.cases_tree import TREE_CASES
from compare.cases_values import VALUE_CASES, names as name_cases
from compare.malformed import MALFORMED_CASES
from model import names

CASES = {
    "response-name": name_cases("response-name", names.FIRST_RESPONSE, len(names.RESPONSES)),
    "command-name": name_cases("command-name", names.FIRST_COMMAND, len(names.COMMANDS)),
    **VALUE_CASES, **DATASET_CASES, **SESSION_CASES, **NETWORK_CASES, **PANEL_CASES, **TREE_CASES, **SETTINGS_CASES, **RECORDING_CASES, **MENDING_CASES, **MALFORMED_CASES,
}

# How many cases a turn has of a question; one where nothing is said.
SHARES = {"response-name": 4, "command-name": 4, "value": 5, "utf8": 2, "property": 2, "answer": 3, "tidy-value": 2, "listing": 2, "panel": 3,
          "settings": 2, "settings-find": 2, "settings-store": 3, "mend": 3}


def cases_of(name, seed):
    """A question's cases in their order: a short one, a random one, and so on."""
    cases, rng = CASES[name], random.Random(f"{seed} {name}")
    for line in cases.short(random.Random(f"{seed} {name} short")):
        yield line
        if cases.one:
            yield cases.one(rng)
    while cases.one:
        yield cases.one(rng)


def turns(wanted, seed):
    """Pairs of a question's name and a line, question by question, for ever or until all have ended."""
    left = {name: cases_of(name, seed) for name in CASES if wanted is None or name in wanted}
    while left:
        for name in list(left):
            for _ in range(SHARES.get(name, 1)):
                line = next(left[name], None)
                if line is None:
                    del left[name]
                    break
                yield name, line


def all_cases(seed, count, wanted=None):
    """`count` pairs of a question's name and a line. The same seed gives the same cases."""
    for _, case in zip(range(count), turns(wanted, seed)):
        yield case
