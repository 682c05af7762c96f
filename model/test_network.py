"""The camera on the network (request 12 of document 02): what the theorems of crates/network say, run on the model."""

import itertools
import random
import unittest

from compare.cases_network import LOAD, came_of, came_transactions, container_of, container_rows, cuts, packet_of, packet_rows, random_came, random_sent
from compare.cases_network import sent_of, sent_transactions
from model import containers, network
from model.refusals import FIELDS, TID, TRANSACTION, Refused

RANDOM = 2000
LAST_PACKET = len(packet_of(network.ANSWER))


def refusal_of(translate, *words):
    """The refusal's number, or None where there is none."""
    try:
        translate(*words)
    except Refused as refused:
        return refused.number
    return None


def all_sent():
    rng = random.Random("sent")
    return itertools.chain(sent_transactions(), container_rows(), (random_sent(rng) for _ in range(RANDOM)))


def all_came():
    rng = random.Random("came")
    return itertools.chain(came_transactions(), packet_rows(), (random_came(rng) for _ in range(RANDOM)))


class Translating(unittest.TestCase):
    def test_to_the_network_and_back_gives_the_same_containers(self):
        accepted = 0
        for data, direction in itertools.product(all_sent(), network.DIRECTIONS):
            if refusal_of(network.to_network, direction, data) is None:
                self.assertEqual(network.from_network(network.to_network(direction, data)), data)
                accepted += 1
        self.assertGreater(accepted, 1000)

    def test_what_comes_back_can_be_sent_again(self):
        """The containers made are one transaction, and its packets are those that came, tidied."""
        for data in all_came():
            if refusal_of(network.from_network, data) is None:
                made = network.from_network(data)
                self.assertEqual(network.from_network(network.to_network("out", made)), made)

    def test_any_two_cuts_of_the_same_data_give_the_same_containers(self):
        self.assertEqual(len({network.from_network(came_of(cut)) for cut in cuts()}), 1)

    def test_before_the_response_packet_nothing_depends_on_the_response(self):
        for load in (None, b"", LOAD):
            front = sent_of(load=load)[:-len(container_of(containers.RESPONSE))]
            sent = {network.to_network("out", front + container_of(containers.RESPONSE, code=code))[:-LAST_PACKET] for code in (0x2001, 0x2002)}
            self.assertEqual(len(sent), 1)

    def test_of_kinds_alone_only_these_rows_are_transactions(self):
        """Numbers, codes and lengths are right in these rows: Command, Data or none, Response; and their packets."""
        command, data, response = (container_of(kind) for kind in (containers.COMMAND, containers.DATA, containers.RESPONSE))
        rows = [row for row in container_rows() if refusal_of(network.to_network, "in", row) is None]
        self.assertEqual(rows, [command + response, command + data + response])
        self.assertTrue(all(refusal_of(network.to_network, "in", row) in (None, TRANSACTION) for row in container_rows()))
        request, start, some, end, answer = (packet_of(kind) for kind in (network.REQUEST, network.START_DATA, network.SOME_DATA, network.END_DATA,
                                                                          network.ANSWER))
        rows = [row for row in packet_rows() if refusal_of(network.from_network, row) is None]
        self.assertEqual(rows, [request + answer, request + start + end + answer, request + start + some + end + answer])

    def test_the_announced_length_and_then_the_numbers(self):
        self.assertEqual(refusal_of(network.from_network, came_of([LOAD], 3)), FIELDS)
        self.assertEqual(refusal_of(network.from_network, came_of([LOAD], 3, numbers=[7, 8, 7, 7])), FIELDS)
        self.assertEqual(refusal_of(network.from_network, came_of([LOAD], 2, numbers=[7, 8, 7, 7])), TID)


if __name__ == "__main__":
    unittest.main()
