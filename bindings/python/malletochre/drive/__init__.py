"""Members of one's own, rehearsed beside the algorithm under hostile schedules.

    from malletochre.drive import Deliver, Estimate, Send, check

    def test_member():
        check(Member, wire, members=3, crash=1)

The driver owns the network, the failure detectors and the seeds. It gives each event to a member, and explains what the member sends and
delivers by steps of a `World`; which steps those are needs no telling. docs/DRIVE.md has the rest.
"""
from .account import Difference, Rules
from .draw import Trouble
from .letters import ALL, Ack, Data, Decision, Estimate, Letter, Nack, Proposal
from .members import Deliver, Outbox, Send
from .report import Failure, schedule_of
from .search import Differs, NotCovered, Searched, Setup, check, search
from .standing import SITUATIONS

__all__ = ["ALL", "Ack", "Data", "Decision", "Deliver", "Difference", "Differs", "Estimate", "Failure", "Letter", "Nack", "NotCovered",
           "Outbox", "Proposal", "Rules", "SITUATIONS", "Searched", "Send", "Setup", "Trouble", "check", "schedule_of", "search"]
