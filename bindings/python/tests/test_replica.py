"""Tests a small implementation step by step: a replica that keeps what it received and delivered, and a table of registers. The other
steps of its group are drawn at random; whatever happens, what it proposes, delivers and keeps has to be what the world says.

    PYTHONPATH=bindings/python python3 -m pytest bindings/python/tests/test_replica.py

(`python3 -m unittest` does it too.)
"""
import random
import unittest
from typing import Dict, List, Set as SetOf, Tuple

from malletochre import (Add, Begin, Command, Copy, Crash, Data, Decision, Deliver, Enter, Follow, Message, Receive, Refusal, Set,
                         StepRefused, Submit, Suspect, World)

Name = Tuple[int, int]   # of a message: its origin and its number there


class Replica:
    """The implementation under test, in plain Python: it knows nothing of the library but the fields of a message."""

    def __init__(self) -> None:
        self.received: Dict[Name, Message] = {}
        self.delivered: List[Name] = []
        self.decisions: Dict[int, List[Message]] = {}
        self.instance = 0
        self.table = [0] * 16

    def receive(self, message: Message) -> None:
        self.received.setdefault((message.origin, message.number), message)

    def decide(self, instance: int, batch: List[Message]) -> None:
        self.decisions.setdefault(instance, batch)

    def begin(self) -> List[Name]:
        """What it proposes for the next instance."""
        self.instance += 1
        return sorted(set(self.received) - set(self.delivered))

    def follow(self) -> None:
        """The next instance was decided without it."""
        self.instance += 1
        self.deliver()

    def deliver(self) -> None:
        for message in self.decisions[self.instance]:
            name = message.origin, message.number
            if name not in self.delivered:
                self.delivered.append(name)
                self.execute(message)

    def execute(self, message: Message) -> None:
        command = message.command
        if isinstance(command, Set):
            self.table[command.register] = command.value
        elif isinstance(command, Add):
            self.table[command.register] = min(self.table[command.register] + command.amount, 2**64 - 1)
        else:
            self.table[command.to] = self.table[command.source]


class Rehearsal:
    """A group whose members are each a replica, under a schedule drawn from a seed."""

    def __init__(self, members: int, seed: int) -> None:
        self.chance = random.Random(seed)
        self.world = World(members, cells=1024)
        self.replicas = {member: Replica() for member in range(1, members + 1)}
        self.up: SetOf[int] = set(self.replicas)
        self.rate = 0.3 / members**2   # submissions a turn; each is members**2 envelopes
        self.coordinators = dict.fromkeys(self.replicas, 0)   # of each member's round

    def command(self) -> Command:
        register, value = self.chance.randrange(16), self.chance.randrange(2**64)
        commands: List[Command] = [Set(register, value), Add(register, value), Copy(register, value % 16)]
        return self.chance.choice(commands)

    def turn(self) -> None:
        member = self.chance.choice(sorted(self.up))
        draw = self.chance.random()
        if draw < self.rate:
            self.world.apply(Submit(member, self.command()))
        elif draw < self.rate + 0.002 and 2 * (len(self.up) - 1) > len(self.replicas):
            self.world.apply(Crash(member))
            self.up.discard(member)
        else:
            self.move(member)

    def move(self, member: int) -> None:
        """A step of the member by itself, or a receipt of anything that waits."""
        world, replica = self.world, self.replicas[member]
        step, waiting = world.next(member), world.serials(member)
        if isinstance(step, Suspect) and self.coordinators[member] in self.up and self.chance.random() < 0.98:
            step = None
        if step is not None and (not waiting or self.chance.random() < 0.5):
            sent = world.apply(step)
            if isinstance(step, Begin):
                self.enter(member, replica.begin())
            elif isinstance(step, Enter):
                self.coordinators[member] = self.receiver(sent[0])
            elif isinstance(step, Deliver):
                replica.deliver()
            elif isinstance(step, Follow):
                replica.follow()
        elif waiting:
            self.receive(member, self.chance.choice(waiting))

    def enter(self, member: int, proposed: List[Name]) -> None:
        """The member enters the first round with what it proposes."""
        if self.world.refusal(Enter(member)) is Refusal.DECIDED:
            return
        serial = self.world.apply(Enter(member))[0]
        self.coordinators[member] = self.receiver(serial)
        value = self.world.value(serial)
        assert value is not None and [(it.origin, it.number) for it in value] == proposed, (member, proposed, value)

    def receiver(self, serial: int) -> int:
        """The member that the envelope goes to."""
        envelope = self.world.envelope(serial)
        assert envelope is not None
        return envelope.to

    def receive(self, member: int, serial: int) -> None:
        envelope = self.world.envelope(serial)
        assert envelope is not None and envelope.to == member
        self.world.apply(Receive(member, serial))
        if isinstance(envelope.content, Data):
            self.replicas[member].receive(envelope.content.message)
        elif isinstance(envelope.content, Decision):
            value = self.world.value(serial)
            assert value is not None
            self.replicas[member].decide(envelope.content.instance, list(value))

    def check(self) -> int:
        """Each replica is where the world says; how many messages the one with most of them delivered."""
        for member, replica in self.replicas.items():
            assert [(it.origin, it.number) for it in self.world.received(member)] == list(replica.received), member
            assert [(it.origin, it.number) for it in self.world.delivered(member)] == replica.delivered, member
            assert self.world.table(member) == replica.table, member
            assert self.world.has_crashed(member) == (member not in self.up), member
        return max(len(replica.delivered) for replica in self.replicas.values())


class ReplicaTest(unittest.TestCase):
    """The replica on random schedules."""

    def rehearse(self, members: int, seeds: range, turns: int) -> int:
        delivered = 0
        for seed in seeds:
            with self.subTest(members=members, seed=seed):
                rehearsal = Rehearsal(members, seed)
                with rehearsal.world:
                    for _ in range(turns):
                        rehearsal.turn()
                    delivered += rehearsal.check()
        return delivered

    def test_three_members(self) -> None:
        self.assertGreater(self.rehearse(3, range(6), 600), 50)

    def test_five_members(self) -> None:
        self.assertGreater(self.rehearse(5, range(3), 1500), 10)

    def test_a_proposal_that_forgets_a_message_is_seen(self) -> None:
        rehearsal = Rehearsal(1, 1)
        with rehearsal.world as world:
            world.apply(Submit(1, Set(0, 7)))
            rehearsal.receive(1, 1)
            rehearsal.replicas[1].received.clear()
            world.apply(Begin(1))
            with self.assertRaises(AssertionError):
                rehearsal.enter(1, rehearsal.replicas[1].begin())

    def test_a_step_that_is_not_allowed_is_refused(self) -> None:
        with World(3) as world:
            with self.assertRaises(StepRefused) as caught:
                world.apply(Begin(1))
        self.assertIs(caught.exception.refusal, Refusal.NOTHING)
        self.assertEqual(str(caught.exception), '["begin",1]: Nothing')


if __name__ == "__main__":
    unittest.main()
