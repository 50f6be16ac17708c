"""A world over `ct_tool`: its steps are lines of a session, and what is asked of it is read off the session's answers and the record."""
from __future__ import annotations

import json
import re
from typing import Any, Dict, List, Optional, Tuple

from . import tool
from .envelopes import Ack, Content, Data, Decision, Envelope, Estimate, Message, Nack, Proposal
from .refusal import BY_NAME, Refusal, StepRefused
from .standing import Phase, Standing
from .steps import WORD, Command, Crash, Receive, Repeat, Postpone, Lose, Step, Submit, step_of_words, within


def act(step: Step) -> str:
    """The step as the act of a line."""
    name, _, *rest = step.entry()
    if isinstance(step, Submit):
        rest = rest[0]
    elif isinstance(step, (Receive, Repeat, Postpone, Lose)):
        rest = [f"#{step.serial}"]
    return " ".join(map(str, [name, *rest]))


def letter(told: str, member: int) -> Dict[str, Any]:
    """What is told of an envelope that waits at the member, as `#9 est 1/1 from 2 {1.1} ts 0`, by the names of `ct_tool steps --json`."""
    serial, kind, name, _, source, *rest = told.split(" ")
    fields: Dict[str, Any] = {"serial": int(serial[1:]), "to": member, "kind": kind.capitalize(), "from": int(source), "message": name}
    if kind != "data":
        fields["instance"], fields["round"] = map(int, name.split("/"))
        if rest:
            fields["value"] = rest[0].strip("{}").split(",")
        if kind == "est":
            fields["timestamp"] = int(rest[2])
    return fields


def _refusal(step: Step, answer: str, name: str) -> Refusal:
    """The refusal of this name that the answer tells."""
    if name not in BY_NAME:
        raise TypeError(f"{step}: {answer}")
    return BY_NAME[name]


class ToolWorld:
    """What a `World` asks of `ct_tool`."""

    def __init__(self, members: int, cells: int, bound: int, program: Optional[str]) -> None:
        self._setup = members, cells, bound, program
        self._pipe = tool.Pipe(tool.found(program))
        self._steps: List[Step] = []
        self._commands: Dict[Tuple[int, int], Command] = {}    # of the messages, by their names
        self._submitted = [0] * (members + 1)
        self._sent = 0                                         # the last serial
        self._lines: Dict[int, str] = {}                       # what waited at members when they were asked last
        self._letters: Dict[int, Dict[str, Any]] = {}          # what `ct_tool steps` told of the envelopes, by serial
        self._told = 0                                         # steps whose envelopes it told
        self._report: Optional[Dict[str, Any]] = None          # the report of these steps, where it was asked for
        self._states: List[Dict[str, Any]] = []                # the members' states after them, where they were
        for line in (f"members {members}", f"cells {cells}", f"batch {bound}"):
            self._pipe.ask(line)

    def apply(self, step: Step) -> range:
        step.numbers()   # which are in their ranges
        answer = self._pipe.ask(f"{step.member} {act(step)}")
        sent = tool.serials(answer)
        if sent is None:
            raise StepRefused(step, _refusal(step, answer, re.split(r"[ :]", answer + "  ")[2]))
        if sent:
            self._sent = sent[-1]
        if isinstance(step, Submit):
            self._submitted[step.member] += 1
            self._commands[step.member, self._submitted[step.member]] = step.command
        self._steps.append(step)
        self._report = None
        self._states = []
        return sent

    def refusal(self, step: Step) -> Optional[Refusal]:
        step.numbers()
        answer = self._pipe.ask(f"expect {step.member} may {act(step)}")
        if answer == "ok":
            return None
        return Refusal.NO_SUCH_MEMBER if answer.startswith("no member") else _refusal(step, answer, answer.rpartition(" ")[2])

    def has_crashed(self, member: int) -> bool:
        return self.refusal(Crash(member)) is Refusal.CRASHED

    def next(self, member: int) -> Optional[Step]:
        line = self._pipe.ask(f"next {member}").partition(" ")[2].partition(" or ")[0]
        return None if line == "-" or " receive " in line else step_of_words(line.split(" "))

    def standing(self, member: int) -> Standing:
        self._pipe.look()
        if not self._states:
            told = tool.output(self._pipe.tool, ["state", "--json"], self._record())
            self._states = [json.loads(line) for line in told.splitlines()[1:]]
        it = self._states[member - 1]
        if not it["open"]:
            return Standing(it["instance"], 0, None, 0, {}, frozenset(), frozenset(), not it["up"])
        heard = {its["member"]: its["timestamp"] for its in it["heard"]}
        return Standing(it["instance"], it["round"], Phase[it["phase"].upper()], it["estimate"]["timestamp"], heard, frozenset(it["acked"]),
                        frozenset(it["replied"]), not it["up"])

    def steps(self) -> List[Step]:
        self._pipe.look()
        return list(self._steps)

    def serials(self, member: int) -> List[int]:
        self._lines[member] = self._pipe.ask(f"waiting {member}")
        return [int(serial) for serial in re.findall(r"#(\d+)", self._lines[member])]

    def _record(self) -> str:
        return self._pipe.ask("record").partition(" ")[2]

    def _waits(self, serial: int) -> Optional[Dict[str, Any]]:
        """What the members' lines tell of an envelope."""
        for member, line in self._lines.items():
            told = re.search(rf"#{serial} [^#]*[^#, ]", line)
            if told:
                return letter(told[0], member)
        return None

    def _letter(self, serial: int) -> Optional[Dict[str, Any]]:
        """What is told of an envelope. One that waits costs a question to each member, others a run of `ct_tool steps`, which looks at the
        steps since the last time alone."""
        within(WORD, serial=serial)
        self._pipe.look()
        if serial not in self._letters and 0 < serial <= self._sent:
            told = self._waits(serial)
            for member in () if told else range(1, self._setup[0] + 1):
                self.serials(member)
            told = told or self._waits(serial)
            if told:
                self._letters[serial] = told
        if serial not in self._letters and self._told < len(self._steps):
            words = ["steps", "--json", "--from", str(self._told + 1)]
            for line in tool.output(self._pipe.tool, words, self._record()).splitlines():
                self._letters.update((letter["serial"], letter) for letter in json.loads(line)["sent"])
            self._told = len(self._steps)
        return self._letters.get(serial)

    def _message(self, name: str) -> Message:
        origin, number = map(int, name.split("."))
        return Message(origin, number, self._commands[origin, number])

    def _content(self, letter: Dict[str, Any]) -> Content:
        if letter["kind"] == "Data":
            return Data(self._message(letter["message"]))
        instance, round_ = letter["instance"], letter["round"]
        if letter["kind"] == "Est":
            return Estimate(instance, round_, letter["from"], letter["timestamp"])
        if letter["kind"] == "Prop":
            return Proposal(instance, round_)
        if letter["kind"] == "Dec":
            return Decision(instance, round_)
        return Ack(instance, round_, letter["from"]) if letter["kind"] == "Ack" else Nack(instance, round_, letter["from"])

    def envelope(self, serial: int) -> Optional[Envelope]:
        letter = self._letter(serial)
        return Envelope(serial, letter["to"], self._content(letter)) if letter else None

    def value(self, serial: int) -> Optional[Tuple[Message, ...]]:
        letter = self._letter(serial)
        return tuple(map(self._message, letter["value"])) if letter and "value" in letter else None

    def _of(self, member: int) -> Dict[str, Any]:
        """The member's part of the report."""
        self._pipe.look()
        if self._report is None:
            self._report = json.loads(self._pipe.ask("report").partition(" ")[2])
        told: Dict[str, Any] = self._report["members"][member - 1]
        return told

    def received(self, member: int) -> List[Message]:
        return list(map(self._message, self._of(member)["received"]))

    def decided(self, member: int, instance: int) -> Optional[Tuple[Message, ...]]:
        within(WORD, instance=instance)
        decided = {it["instance"]: tuple(map(self._message, it["messages"])) for it in self._of(member)["decided"]}
        return decided.get(instance)

    def delivered(self, member: int) -> List[Message]:
        return list(map(self._message, self._of(member)["delivered"]))

    def table(self, member: int) -> List[int]:
        return list(self._of(member)["table"])

    def copy(self) -> ToolWorld:
        other = ToolWorld(*self._setup)
        for step in self.steps():
            other.apply(step)
        return other

    def close(self) -> None:
        self._pipe.close()

    def __del__(self) -> None:
        if hasattr(self, "_pipe"):
            self.close()
