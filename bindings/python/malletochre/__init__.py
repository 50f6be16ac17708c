"""A rehearsal of Chandra and Toueg's atomic broadcast, in process, to test implementations against: each step that an implementation
takes is told to a `World`, which does it, or says why the algorithm refuses it.

    from malletochre import Begin, Choose, Enter, Receive, Refusal, Refused, Set, Submit, World

    with World(3) as world:
        assert world.apply(Submit(1, Set(0, 7))) == range(1, 4)
        for member in (1, 2, 3):
            world.apply(Receive(member, member))
            world.apply(Begin(member))
            world.apply(Enter(member))
        # Member 2 coordinates round 1. It has heard nobody yet, and may not propose.
        assert world.refusal(Choose(2, 2)) is Refusal.TOO_FEW

A `Walk` draws steps at random, as `ct_tool walk` does; a `Shrinker`, or `shrunk`, makes a run that passes a test smaller. A `Session` is
told lines of a schedule instead (docs/SCHEDULES.md), and answers each.

Worlds and sessions work in process where libct.so is there: in the package, in bindings/out of a clone, or where the variable CT_LIB says.
Else, and where they are given `tool`, they start `ct_tool` (of the clone, on the path, or where the variable CT_TOOL says) and give the
same answers over a pipe. `IN_PROCESS` tells which it is. Walks and shrinkers need libct.so.

Calls in process hold the interpreter's lock; without it, as over a pipe, use a world or a session in one thread at a time.
"""
from .envelopes import Ack, Content, Data, Decision, Envelope, Estimate, Message, Nack, Proposal
from .library import IN_PROCESS
from .refusal import LineRefused, NoWorld, Refusal, Refused, StepRefused
from .session import Session
from .shrinker import Shrinker, shrunk
from .standing import Phase, Standing
from .steps import (Add, Adopt, Begin, Choose, Command, Conclude, Copy, Crash, Deliver, Enter, Follow, Lose, Postpone, Receive, Repeat,
                    Set, Step, Submit, Suspect)
from .walk import Turn, Walk
from .world import MAX_BOUND, MAX_CELLS, MAX_MEMBERS, World

__version__ = "0.1.0"

__all__ = ["Ack", "Add", "Adopt", "Begin", "Choose", "Command", "Conclude", "Content", "Copy", "Crash", "Data", "Decision", "Deliver",
           "Enter", "Envelope", "Estimate", "Follow", "IN_PROCESS", "LineRefused", "Lose", "MAX_BOUND", "MAX_CELLS", "MAX_MEMBERS",
           "Message", "Nack", "NoWorld", "Phase", "Postpone", "Proposal", "Receive", "Refusal", "Refused", "Repeat", "Session", "Set",
           "Shrinker", "Standing", "Step", "StepRefused", "Submit", "Suspect", "Turn", "Walk", "World", "shrunk"]
