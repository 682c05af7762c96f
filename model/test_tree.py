"""The tree (requests 8, 9 and 13 of document 02): what the theorems of crates/tree and crates/shots say, run on the model over small tables and full ones."""

import itertools
import random
import unittest

from compare.cases_tree import full_tables, marked_tables, name, new_name, random_table
from model import tree
from model.refusals import ROOM, TAKEN, Refused

RANDOM_TABLES = 300


def tables():
    """Tables that are accepted."""
    rng = random.Random("tables")
    for table in itertools.chain(marked_tables(), full_tables(), (random_table(rng) for _ in range(RANDOM_TABLES))):
        try:
            tree.read_names(table)
        except Refused:
            continue
        yield table


def all_paths(table):
    """Each live object's handle and path, in walk order."""
    return [(table.handles[place], tree.path(table, place)) for place in tree.walk(table)]


class Deleting(unittest.TestCase):
    def test_what_is_below_the_place_leaves_the_walk_and_all_else_stays(self):
        for table in tables():
            for place in tree.live_places(table)[1:4]:
                after = table._replace(marks=tree.delete(table, place))
                self.assertTrue(tree.has_rule(after))
                ways, walk = tree.ways(table), tree.walk(table)
                self.assertEqual(tree.walk(after), [at for at in walk if place not in ways[at]])
                for at in tree.walk(after)[:5]:
                    self.assertEqual(tree.path(after, at), tree.path(table, at))


class Collecting(unittest.TestCase):
    def test_walk_and_paths_are_the_same_but_for_place_numbers(self):
        for table in tables():
            after, new = tree.collect(table)
            self.assertTrue(tree.has_rule(after))
            self.assertEqual(after.count, len(tree.live_places(table)))
            self.assertEqual(tree.walk(after), [new[place] for place in tree.walk(table)])
            self.assertEqual([new[place] for place in tree.live_places(table)], list(range(after.count)))
            if table.count < 60:
                self.assertEqual(all_paths(after), all_paths(table))
            for row in tree.LISTS:
                self.assertEqual(getattr(after, row)[after.count:], getattr(table, row)[after.count:])
            end = after.ends[after.count - 1]
            self.assertEqual(after.names[end:], table.names[end:])


class Adding(unittest.TestCase):
    def added(self, table, parent, given):
        try:
            return tree.add(table, parent, 77, given)
        except Refused as refused:
            return refused.number

    def test_every_path_stays_and_the_new_one_is_its_parents_and_the_name(self):
        rng = random.Random("adding")
        for table in tables():
            live = tree.live_places(table)
            parent, given = rng.choice(live), rng.choice([name("x"), new_name(rng, table)])
            made = self.added(table, parent, given)
            if isinstance(made, int):
                self.judge_refused(table, given, made)
            else:
                self.judge(table, parent, given, *made)

    def judge_refused(self, table, given, number):
        """19 exactly with 1,024 live objects; 9 exactly where collecting would not free enough."""
        live = tree.live_names(table)
        short = len(table.names) - sum(map(len, live)) < len(given)
        if number == TAKEN:
            self.assertEqual(len(live), tree.PLACES)
        elif number == ROOM:
            self.assertTrue(short and len(live) < tree.PLACES)

    def judge(self, table, parent, given, after, place, new):
        self.assertTrue(tree.has_rule(after))
        self.assertEqual((after.count, after.handles[place], after.parents[place]), (place + 1, 77, new[parent]))
        if table.count < 60:
            above = tree.path(table, parent)
            self.assertEqual(tree.path(after, place), above + (b"/" if above else b"") + tree.read_name(given))
            for old in tree.live_places(table):
                self.assertEqual(tree.path(after, new[old]), tree.path(table, old))
        if new == list(range(table.count)) and place == table.count:
            for row in tree.LISTS:
                self.assertEqual(getattr(after, row)[:place], getattr(table, row)[:place])


class Linking(unittest.TestCase):
    def test_a_places_chain_is_its_children_and_all_chains_hold_each_place_once(self):
        for table in tables():
            links, seen = tree.links(table), []
            for place in tree.live_places(table):
                chain = [links.first[place]]
                while chain[-1]:
                    chain.append(links.next[chain[-1]])
                self.assertEqual(chain[:-1], [at for at in tree.live_places(table)[1:] if table.parents[at] == place])
                seen += chain[:-1]
            self.assertEqual(sorted(seen), tree.live_places(table)[1:])
            self.assertEqual(sum(map(bool, links.first + links.next)), len(seen))


class Viewing(unittest.TestCase):
    def test_each_folder_stands_before_all_below_it_and_they_before_what_follows(self):
        for table in tables():
            view, ways = tree.folders(table), tree.ways(table)
            self.assertEqual(sorted(view), sorted(tree.walk(table)))
            for at, place in enumerate(view[:200]):
                below = [one for one in view if place in ways[one]]
                self.assertEqual(view[at:at + len(below)], below)

    def test_siblings_rise(self):
        for table in tables():
            last = {}
            for place in tree.folders(table)[1:]:
                self.assertGreater(place, last.get(table.parents[place], 0))
                last[table.parents[place]] = place

    def test_collecting_moves_the_view_and_deleting_shortens_it(self):
        for table in tables():
            after, new = tree.collect(table)
            self.assertEqual(tree.folders(after), [new[place] for place in tree.folders(table)])
            for place in tree.live_places(table)[1:4]:
                ended = table._replace(marks=tree.delete(table, place))
                self.assertEqual(tree.folders(ended), [at for at in tree.folders(table) if place not in tree.ways(table)[at]])


if __name__ == "__main__":
    unittest.main()
