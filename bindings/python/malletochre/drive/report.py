"""What is told of a difference, and what is kept of it."""
from __future__ import annotations

import os
import shlex
import sys
import textwrap
from dataclasses import dataclass, field
from typing import List, Optional, Tuple

from ..refusal import LineRefused
from ..session import Session
from ..world import MAX_BOUND, MAX_CELLS
from .account import Difference
from .network import Event, event_text
from .schedules import HEAD

# What the algorithm asks for, by the refusal of a step, in the words of the article.
REASONS = {
    ("choose", "TooFew"): "a coordinator proposes once estimates of its round came from a majority (phase 2)",
    ("choose", "NotLargest"): "it proposes one of the estimates with the largest ts that came: another may undo a decision (phase 2)",
    ("choose", "WrongPhase"): "a coordinator proposes once in its round (phase 2)",
    ("adopt", "NoProposal"): "an ack says that the round's proposal came (phase 3)",
    ("adopt", "WrongPhase"): "a member replies once in a round (phase 3)",
    ("suspect", "HasProposal"): "a member whose round's proposal came takes it over (phase 3)",
    ("suspect", "WrongPhase"): "a member replies once in a round (phase 3)",
    ("conclude", "TooFew"): "a coordinator waits for the replies of a majority (phase 4)",
    ("conclude", "WrongPhase"): "a coordinator ends its round once, behind its own reply (phase 4)",
    ("enter", "WrongPhase"): "a member enters the next round once it has replied in this one, its coordinator once it has concluded",
    ("enter", "Decided"): "a member that has the decision enters no further round",
    ("begin", "Nothing"): "an instance begins where something was received that is not delivered",
}
MOST_SHOWN = 300   # of what a member did, in a schedule
WIDTH = 80


@dataclass
class Failure:
    """A difference that was found, and the smallest schedule in which there is one."""

    source: str                    # "seed 7", or the name of a schedule
    found: int                     # events up to the difference, as it was found
    members: int
    bound: int
    difference: Difference         # in the small schedule
    events: List[Event]            # of that
    lines: List[Tuple[str, str]]   # of that run: lines of a schedule, with comments
    trials: int = 0
    stopped: str = ""              # what stopped them; empty where no event can be left out
    note: str = ""                 # what is to be said besides
    path: str = ""                 # what was kept, without the ending; empty where nothing was
    judged: str = ""               # what the judge says of the schedule
    kept: List[str] = field(default_factory=list)   # the files

    def __str__(self) -> str:
        return text_of(self)

    @property
    def steps(self) -> int:
        return sum(1 for text, _ in self.lines if text)


def _marked(failure: Failure) -> List[Tuple[str, str, str]]:
    """A mark, a line and a comment each; marked is what the member did, or the last line."""
    it = failure.difference
    lines = [("", text, f"# {comment}" if comment else "") for text, comment in failure.lines]
    if it.line:
        del lines[len(lines) - (it.kind in ("unlike", "delivered")):]   # that stands in the place of the last line
        return [*lines, (">", it.line, f"# refused: {it.cause}" if it.cause else f"# yours; the algorithm {it.ought}")]
    return [*lines[:-1], (">", *lines[-1][1:])] if lines else []


def text_of(failure: Failure) -> str:
    it = failure.difference
    lines = _said("", f"member {it.member} differs from the algorithm: {failure.source}, event {failure.found}")
    if failure.trials or failure.stopped:
        stopped = f", {failure.stopped}" if failure.stopped else ""
        lines += [f"(made small: {len(failure.events)} events, {failure.steps} steps; {failure.trials} trials{stopped})"]
    lines += [""]
    marked = [("", f"members {failure.members}", ""), *_marked(failure)]
    width = max([len(text) for _, text, _ in marked] + [24]) + 2
    lines += [(f"  {mark:1} " + (f"{text:{width}}{comment}" if text else comment)).rstrip() for mark, text, comment in marked]
    event = event_text(it.event) if it.event else "all that waited, in the end"
    lines += ["", *_said("told", event), *_said("yours", f"member {it.member} {it.says}")]
    if it.kind == "refused":
        reason = REASONS.get((it.act.split(" ")[0], it.cause), "")
        lines += [*_said("rule", f"{it.act} is refused, {it.cause}" + (f": {reason}" if reason else "")), *_said("where", it.ought)]
    else:
        lines += _said("rule", f"member {it.member} {it.ought}" + (f" ({it.cause})" if it.cause else ""))
    lines += _said("note", failure.note)
    if failure.kept:
        lines += ["", *_again(shlex.quote(failure.kept[0]))]
        lines += _said("small", "it may get smaller yet: the same test, run again, goes on from there") if failure.stopped else []
        lines += _said("look", f"{failure.kept[-1]}; {failure.judged}") if failure.judged else []
    return "\n".join(lines)


def _said(label: str, text: str) -> List[str]:
    """Its lines, which are no longer than WIDTH where words allow."""
    begin = f"  {label:7}" if label else ""
    return textwrap.wrap(text, WIDTH, initial_indent=begin, subsequent_indent=" " * len(begin), break_long_words=False,
                         break_on_hyphens=False)


def _again(path: str) -> List[str]:
    """How the schedule is tried alone: in pytest, else by the words that this program was called by."""
    if "PYTEST_CURRENT_TEST" in os.environ:
        return _said("again", f"pytest --rehearse {path}, or in its place the variable CT_REHEARSE={path}")
    variable, words = f"  again  CT_REHEARSE={path}", shlex.join(sys.orig_argv)
    return [f"{variable} {words}"] if len(variable) + len(words) < WIDTH else [f"{variable} \\", f"         {words}"]


def schedule_of(failure: Failure) -> str:
    """The run as a schedule for `ct_tool record` and the page. Its last line is what the member did, where a line can say so: the judge
    refuses it, as `refused`, `not so` or `not met`."""
    it = failure.difference
    lines = [HEAD, f"members {failure.members}", f"cells {MAX_CELLS}"]
    lines += [f"batch {failure.bound}"] if failure.bound != MAX_BOUND else []
    lines += [f"{text} {comment}".strip() for _, text, comment in _marked(failure)]
    told = " ".join(f"# your member {it.member} {it.says}"[:MOST_SHOWN].split())
    return "\n".join([*lines, *([] if it.line else [f"{told}; the algorithm: {it.ought}"])]) + "\n"


def keep(failure: Failure, path: str) -> None:
    """Writes PATH.schedule, and where a line can state the run PATH.json and PATH.svg; and has a session judge the schedule."""
    os.makedirs(os.path.dirname(path), exist_ok=True)
    text = schedule_of(failure)
    files = {"schedule": text}
    if any(line for line, _ in failure.lines):
        failure.judged, record, diagram = judged(text, failure.difference)
        files.update({"json": record, "svg": diagram})
    for ending, content in files.items():
        if not content:
            continue
        with open(f"{path}.{ending}", "w", encoding="utf-8") as file:
            file.write(content)
        failure.kept.append(os.path.relpath(f"{path}.{ending}"))
    failure.path = path


def judged(schedule: str, difference: Difference) -> Tuple[str, str, str]:
    """What a session says of the schedule, whose last line it has to refuse where it states what the member did; record and diagram."""
    fault: Optional[LineRefused] = None
    lines = schedule.splitlines()
    with Session() as session:
        for line in lines:
            try:
                session.ask(line)
            except LineRefused as refused:
                fault = refused
                break
        record = session.record()
        try:
            diagram = session.diagram()
        except ValueError:   # too many steps to draw
            diagram = ""
    is_right = fault is None if not difference.line else fault is not None and fault.number == len(lines)
    is_right = is_right and (difference.kind != "refused" or fault is not None and str(fault.refusal) == difference.cause)
    if not is_right:
        return f"`ct_tool record` doesn't agree, which is a mistake of the driver: {fault or 'no line is refused'}", record, diagram
    told = f"refuses its line {fault.number}: {fault.fault.partition(':')[0]}" if fault else "accepts its lines"
    return f"`ct_tool record` {told}", record, diagram
