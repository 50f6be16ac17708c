"""Datagrams among the members that get late and get lost, and are sent again until they are answered."""
from __future__ import annotations

import heapq
import json
import random
import select
import socket
import time
from typing import Any, Callable, Dict, List, Tuple

FIRST_WAIT, LONGEST_WAIT = 0.03, 0.5   # seconds until a datagram is sent again; each time it is twice as long
LARGEST = 65_507                       # bytes of a datagram


class Timers:
    """What is to be done later."""

    def __init__(self) -> None:
        self.heap: List[Tuple[float, int, Callable[[], None]]] = []
        self.count = 0

    def after(self, seconds: float, act: Callable[[], None]) -> None:
        self.count += 1
        heapq.heappush(self.heap, (time.monotonic() + seconds, self.count, act))

    def run(self) -> None:
        """Does what is due."""
        while self.heap and self.heap[0][0] <= time.monotonic():
            heapq.heappop(self.heap)[2]()

    def wait(self, most: float) -> float:
        """Seconds until something is due, at most so many."""
        return max(0.0, min(most, self.heap[0][0] - time.monotonic())) if self.heap else most


class Net:
    """The network as one member sees it: `send` brings what it is given to its receiver, late, more than once, or never where the
    receiver is dead; a member's own letters come so, too. Heartbeats go once.

    ports: of each member. delay: seconds, mostly less than a third of it. loss: the share of datagrams that is lost."""

    def __init__(self, member: int, ports: Dict[int, int], sock: socket.socket, timers: Timers, delay: float, loss: float) -> None:
        self.member, self.ports, self.sock, self.timers, self.delay, self.loss = member, ports, sock, timers, delay, loss
        self.random = random.Random()
        self.sent = 0                             # letters, which numbers them
        self.unanswered: Dict[int, bytes] = {}    # by number
        sock.setblocking(False)

    def send(self, to: int, letter: Any) -> None:
        self.sent += 1
        self.unanswered[self.sent] = json.dumps(["letter", self.member, self.sent, letter]).encode()
        if len(self.unanswered[self.sent]) > LARGEST:
            raise ValueError("a letter is too long for a datagram; --batch bounds it")
        self.attempt(to, self.sent, FIRST_WAIT + self.delay)

    def attempt(self, to: int, number: int, wait: float) -> None:
        """Sends the letter, and again after a while, unless it was answered by then."""
        if number in self.unanswered:
            self.post(to, self.unanswered[number])
            self.timers.after(wait, lambda: self.attempt(to, number, min(2 * wait, LONGEST_WAIT)))

    def beat(self) -> None:
        """Sends a heartbeat to the others."""
        for to in self.ports:
            if to != self.member:
                self.post(to, json.dumps(["beat", self.member, 0, None]).encode())

    def post(self, to: int, datagram: bytes) -> None:
        """Sends a datagram late, or loses it."""
        if self.random.random() >= self.loss:
            self.timers.after(self.random.random() ** 2 * self.delay, lambda: self.put(to, datagram))

    def put(self, to: int, datagram: bytes) -> None:
        try:
            self.sock.sendto(datagram, ("127.0.0.1", self.ports[to]))
        except OSError:   # its receiver is dead, or its line full: lost
            pass

    def take(self, wait: float, heard: Callable[[int], None], received: Callable[[int, Any], None]) -> None:
        """Takes what comes within so many seconds: tells from whom, and each letter."""
        if not select.select([self.sock], [], [], wait)[0]:
            return
        try:
            kind, sender, number, content = json.loads(self.sock.recv(LARGEST))
        except OSError:
            return
        heard(sender)
        if kind == "answer":
            self.unanswered.pop(number, None)
        elif kind == "letter":
            received(sender, content)
            self.post(sender, json.dumps(["answer", self.member, number, None]).encode())
