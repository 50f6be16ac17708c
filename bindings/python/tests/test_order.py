"""What `Order` says of deliveries: each fault with both places, and by a search on small random histories.

    PYTHONPATH=bindings/python python3 -m unittest bindings/python/tests/test_order.py
"""
import random
import unittest
from typing import Callable, Dict, List, Tuple

from malletochre.order import Order, OutOfOrder

HISTORIES = 2000


def told() -> Order[str]:
    """Two processes, two messages, one of which one of them has yet to deliver."""
    order: Order[str] = Order()
    for process, message in (("a", "m1"), ("b", "m2")):
        order.broadcast(process, message)
    for message in ("m1", "m2"):
        order.deliver("a", message)
    order.state("a", "x")
    order.deliver("b", "m1")
    return order


def other_state(order: Order[str]) -> None:
    order.deliver("b", "m2")
    order.state("b", "y")


FAULTS: List[Tuple[str, Callable[[Order[str]], None], str]] = [
    ("validity", lambda it: it.deliver("b", "m3"), "b (call 7) delivers m3 at position 2: it was broadcast by nobody"),
    ("integrity", lambda it: it.deliver("b", "m1"), "b (call 7) delivers m1 again at position 2: it did at position 1"),
    ("integrity", lambda it: it.broadcast("b", "m1"), "b (call 7) broadcasts m1 again: it was broadcast by a (call 1)"),
    ("order", lambda it: it.deliver("c", "m2"), "c (call 7) delivers m2 at position 1: m1 was delivered there by a (call 3)"),
    ("state", other_state, "b (call 8) has the state y at position 2: there was x at a (call 5)"),
    ("agreement", Order.settled, "b (call 7) never delivers m2 at position 2"),
]


def is_atomic(history: List[Tuple[str, str, str]]) -> bool:
    """Whether some sequence without repeats begins with the deliveries of each process, all of them broadcast before."""
    sequences: Dict[str, List[str]] = {}
    broadcast: List[str] = []
    for what, process, message in history:
        if what == "broadcast":
            if message in broadcast:
                return False
            broadcast.append(message)
        else:
            if message not in broadcast:
                return False
            sequences.setdefault(process, []).append(message)
    longest: List[str] = max(sequences.values(), key=len, default=[])
    return len(set(longest)) == len(longest) and all(longest[:len(it)] == it for it in sequences.values())


class Orders(unittest.TestCase):
    """Orders."""

    def test_faults(self) -> None:
        for kind, does, says in FAULTS:
            with self.subTest(says), self.assertRaises(OutOfOrder) as raised:
                does(told())
            self.assertEqual((raised.exception.kind, str(raised.exception)), (kind, says))

    def test_message_elsewhere(self) -> None:
        order = told()
        order.snapshot("c", 2)
        with self.assertRaises(OutOfOrder) as raised:
            order.deliver("c", "m1")
        self.assertEqual(str(raised.exception), "c (call 8) delivers m1 at position 3: it was delivered at position 1 by a (call 3)")

    def test_a_fault_changes_nothing(self) -> None:
        for _, does, says in FAULTS[:4]:
            with self.subTest(says):
                order = told()
                with self.assertRaises(OutOfOrder):
                    does(order)
                order.deliver("b", "m2")
                order.state("b", "x")
                order.settled()

    def test_restart(self) -> None:
        order = told()
        order.crash("b")
        order.settled()
        order.restart("b", 0)
        self.assertEqual(order.missing("b"), ["m1", "m2"])
        for message in ("m1", "m2"):
            order.deliver("b", message)
        order.settled()
        with self.assertRaises(ValueError):
            order.restart("b", 3)
        with self.assertRaises(ValueError):
            order.snapshot("b", 1)

    def test_by_search(self) -> None:
        draws, met = random.Random(1), {True: 0, False: 0}
        for _ in range(HISTORIES):
            order: Order[str] = Order()
            history: List[Tuple[str, str, str]] = []
            messages = draws.sample("wxyz", draws.randint(1, 4))
            for message in messages:
                history.append(("broadcast", draws.choice("abc"), message))
            at = {p: 0 for p in "abc"}
            for _ in range(draws.randint(1, 8)):
                p = draws.choice("abc")
                message = messages[at[p]] if at[p] < len(messages) and draws.random() < 0.9 else draws.choice("wxyz")
                history.append(("deliver", p, message))
                at[p] += 1
            accepted = True
            try:
                for what, p, message in history:
                    getattr(order, what)(p, message)
            except OutOfOrder:
                accepted = False
            self.assertEqual(accepted, is_atomic(history), history)
            met[accepted] += 1
        self.assertGreater(min(met.values()), HISTORIES // 10)


if __name__ == "__main__":
    unittest.main()
