#!/usr/bin/env python3
"""Checks what `ct_tool merge` says of logs: small ones by hand, with what they expect, logs whose ends are lost, logs that grow, the
cluster of examples/ with members killed and with each of its mistakes, and a comparison with a search through all orders.

    logs.py CT_TOOL        the last line is N passed, M failed; needs cc and rustc
"""
from __future__ import annotations

import os
import pathlib
import re
import subprocess
import sys
import tempfile
import time
from typing import Callable, Dict, List, NamedTuple, Sequence, Tuple, Union

HERE = os.path.dirname(os.path.abspath(__file__))
CLUSTER = os.path.join(HERE, "..", "examples", "cluster")
sys.dont_write_bytecode = True
sys.path.insert(0, CLUSTER)
from detector import Detector  # noqa: E402

SECONDS = 20
SECONDS_OF_RUNS = 120
SETS = 40
MOMENT = 0.3    # between what a writer appends
WRITTEN = (0, 7)    # the statuses with which a run is written


class Case(NamedTuple):
    name: str
    logs: Dict[str, str]
    status: int
    told: str
    options: Sequence[str] = ()


GOSSIP = {"1.log": "members 2\nsubmit set 0 7\nreceive data 1.1 from 1\n", "2.log": "2 receive data 1.1 from 1 set 0 7\n"}

# Two members that come to a proposal.
ONE = "members 2\nsubmit set 0 7\nreceive data 1.1 from 1\nbegin\nenter\n"
TWO = "receive data 1.1 from 1\nbegin\nenter\nreceive est 1/1 from 1\nreceive est 1/1 from 2\nchoose 1\n"


def instance(k: int) -> str:
    """What one member does in the instance, with its message k."""
    return (f"submit set 0 7\nreceive data 1.{k} from 1\nbegin\nenter\nreceive est {k}/1 from 1\nchoose 1\nreceive prop {k}/1 from 1\n"
            f"adopt\nreceive ack {k}/1 from 1\nconclude\nreceive dec {k}/1 from 1\ndeliver\n")


ALONE = instance(1)

TEN = "members 1\n" + "submit set 0 7\n" * 10 + "".join(f"receive data 1.{number} from 1\n" for number in range(1, 11))

CASES = [
    Case("two members", GOSSIP, 0,
         "accepted: 2 members, 3 lines; instances 0, largest round 0, suspicions 0, choices between different ts 0, repetitions 0"),
    Case("a second receipt", {**GOSSIP, "1.log": GOSSIP["1.log"] + "receive data 1.1 from 1\n"}, 0,
         "accepted: 2 members, 4 lines; instances 0, largest round 0, suspicions 0, choices between different ts 0, repetitions 1"),
    Case("one that begins with nothing", {"1.log": "members 2\n# nothing waits\nbegin\n"}, 1,
         "refused: 1.log line 3: begin: member 1 is refused Nothing"),
    Case("another command", {**GOSSIP, "2.log": "receive data 1.1 from 1 set 0 8\n"}, 1,
         "refused: 1.log line 2: submit set 0 7: member 2 received set 0 8 (2.log line 1), and by this line it is set 0 7"),
    Case("another command than was passed on",
         {"1.log": "members 3\nsubmit set 0 7\n", "2.log": "receive data 1.1 from 1 set 0 7\n",
          "3.log": "receive data 1.1 from 2 set 0 8\n"}, 1,
         "refused: 2.log line 1: receive data 1.1 from 1 set 0 7: member 3 received set 0 8 (3.log line 1), "
         "and by this line it is set 0 7"),
    Case("a crashed sender", {"1.log": "submit set 0 7\ncrash\n", "2.log": "receive est 1/1 from 1\n"}, 1,
         "refused: 2.log line 1: receive est 1/1 from 1: it was not sent before, and member 1 can't send it any more"),
    Case("a log that ends too early", {"1.log": "members 2\n", "2.log": "receive data 1.1 from 1\n"}, 6,
         "incomplete: 2.log line 1: receive data 1.1 from 1: the log of member 1 ends before it is sent"),
    Case("a log that isn't there", {"1.log": "members 3\n", "2.log": "receive data 3.1 from 3\n"}, 6,
         "incomplete: 2.log line 1: receive data 3.1 from 3: there is no log of member 3"),
    Case("each waits for the other",
         {"1.log": "receive data 2.1 from 2\nsubmit set 0 1\n", "2.log": "receive data 1.1 from 1\nsubmit set 0 2\n"}, 1,
         "refused: 1.log line 1: receive data 2.1 from 2: it waits for a line that waits for it\n"
         "circle: 1.log line 1: receive data 2.1 from 2: it waits for 2.log line 2: submit set 0 2\n"
         "circle: 2.log line 1: receive data 1.1 from 1: it waits for 1.log line 2: submit set 0 1"),
    Case("a word that is no act", {"1.log": "members 1\nrecieve data 1.1 from 1\n"}, 2,
         "1.log line 2: recieve data 1.1 from 1: not understood: recieve is no act; receive?"),
    Case("a word that is near to no act", {"1.log": "members 1\n1 broadcast 1.1\n"}, 2,
         "1.log line 2: 1 broadcast 1.1: not understood: broadcast is no act: "
         "submit, receive, begin, enter, choose, adopt, suspect, conclude, deliver, follow, crash"),
    Case("a record", {"1.log": '{"batch":1048560,"cells":64,"n":1,"steps":[]}\n'}, 2, "1.log: this is a record, not the log of a member"),
    Case("turns", {"1.log": "members 1\n1 turns 4\n"}, 2, "1.log line 2: 1 turns 4: no act of one member, as a log has"),
    Case("a receipt without its sender", {"1.log": "members 1\nreceive data 1.1\n"}, 2,
         "1.log line 2: receive data 1.1: the sender is missing: from and a member"),
    Case("a proposal without its sender", {"1.log": ONE + "receive prop 1/1\n", "2.log": TWO}, 0,
         "accepted: 2 members, 11 lines; instances 1, largest round 1, suspicions 0, choices between different ts 0, repetitions 0"),
    Case("a proposal without its sender, which the member itself would have to choose",
         {"1.log": ONE + "receive prop 1/2\n", "2.log": TWO}, 1,
         "refused: 1.log line 6: receive prop 1/2: it waits for a line that waits for it\n"
         "circle: 1.log line 6: receive prop 1/2: no line of 1.log sends it"),
    Case("a proposal of no member", {"1.log": ONE + "receive prop 1/1 from 0\n", "2.log": TWO}, 1,
         "refused: 1.log line 6: receive prop 1/1 from 0: it was not sent before, and member 0 can't send it any more"),
    Case("estimates without their ts",
         {"1.log": ONE.replace("enter", "enter {1.1}") + "receive prop 1/1 {1.1}\nadopt {1.1}\n",
          "2.log": TWO.replace("est 1/1 from 1", "est 1/1 from 1 {1.1}")}, 0,
         "accepted: 2 members, 12 lines; instances 1, largest round 1, suspicions 0, choices between different ts 0, repetitions 0"),
    Case("an adoption of another value", {"1.log": ONE + "receive prop 1/1\nadopt {1.2}\n", "2.log": TWO}, 1,
         "refused: 1.log line 7: adopt {1.2}: member 1 came to {1.1} ts 1"),
    Case("half of an estimate", {"1.log": ONE + "receive prop 1/1\nadopt {1.1\n", "2.log": TWO}, 2,
         "1.log line 7: adopt {1.1: not understood: {1.1 is no value, as {1.1,2.1}"),
    Case("a conclusion with its value", {"1.log": "members 1\n" + ALONE.replace("conclude", "conclude {1.1} # decided")}, 0,
         "accepted: 1 member, 12 lines; instances 1, largest round 1, suspicions 0, choices between different ts 0, repetitions 0"),
    Case("a conclusion with another value", {"1.log": "members 1\n" + ALONE.replace("conclude", "1 conclude {1.2}")}, 1,
         "refused: 1.log line 11: 1 conclude {1.2}: member 1 came to {1.1}"),
    Case("two logs of one member", {"1.log": "1 submit set 0 7\n", "2.log": "1 submit set 0 7\n"}, 2,
         "2.log: member 1's log, as a file before it; one that names no member is read as that of its place"),
    Case("a log that names no member, behind one that names that of its place",
         {"2.log": "members 3\n2 submit set 0 7\n", "3.log": "3 submit set 0 7\n", "4.log": "members 3\n"}, 2,
         "4.log: member 3's log, as a file before it; one that names no member is read as that of its place"),
    Case("a log that a later line says whose it is", {"a.log": "members 3\nsubmit set 0 7\n2 receive data 2.1 from 2 set 0 7\n"}, 0,
         "accepted: 3 members, 2 lines; instances 0, largest round 0, suspicions 0, choices between different ts 0, repetitions 0"),
    Case("a log of two members", {"a.log": "members 3\nsubmit set 0 7\n2 receive data 2.1 from 2\n3 begin\n"}, 2,
         "a.log line 4: 3 begin: member 3's, in the log of another"),
    Case("a log of no member", {"a.log": "0 begin\n"}, 2, "a.log: member 0's log, and members are 1 to 16"),
    Case("heads that disagree", {"1.log": "members 3\n", "2.log": "members 2\n"}, 2,
         "2.log: members 2, and a log before it has members 3"),
    Case("a value of more than eight messages, in short", {"1.log": TEN + "begin {1.1,1.2,1.3,1.4,1.5,1.6,1.7,1.8 and 2 more}\n"}, 0,
         "accepted: 1 member, 21 lines; instances 1, largest round 0, suspicions 0, choices between different ts 0, repetitions 0"),
    Case("another count of messages", {"1.log": TEN + "begin {1.1,1.2,1.3,1.4,1.5,1.6,1.7,1.8 and 3 more}\n"}, 1,
         "refused: 1.log line 22: begin {1.1,1.2,1.3,1.4,1.5,1.6,1.7,1.8 and 3 more}: member 1 came to "
         "{1.1,1.2,1.3,1.4,1.5,1.6,1.7,1.8 and 2 more}"),
    Case("a value of ten messages, in any order", {"1.log": TEN + "begin {1.10,1.2,1.3, 1.4,1.5,1.6,1.7,1.8,1.9,1.1}\n"}, 0,
         "accepted: 1 member, 21 lines; instances 1, largest round 0, suspicions 0, choices between different ts 0, repetitions 0"),
    Case("a value of which the tenth message is another", {"1.log": TEN + "begin {1.1,1.2,1.3,1.4,1.5,1.6,1.7,1.8,1.9,1.11}\n"}, 1,
         "refused: 1.log line 22: begin {1.1,1.2,1.3,1.4,1.5,1.6,1.7,1.8,1.9,1.11}: member 1 came to "
         "{1.1,1.2,1.3,1.4,1.5,1.6,1.7,1.8 and 2 more}"),
    Case("a member without a log", {"1.log": "members 3\n", "3.log": "3 begin\n"}, 1,
         "refused: 3.log line 1: 3 begin: member 3 is refused Nothing"),
    Case("too many members", {"1.log": "members 17\nsubmit set 0 7\n"}, 2,
         "1.log line 1: members 17: not understood: 17 is no number from 1 to 16"),
    Case("a receipt after a crash", {"1.log": "members 2\ncrash\nreceive data 2.1 from 2\n", "2.log": "members 2\n"}, 1,
         "refused: 1.log line 3: receive data 2.1 from 2: member 1 is refused Crashed"),
    Case("a message that is passed on, and repeated",
         {"1.log": "members 3\n1 submit set 0 7\nreceive data 1.1 from 1 set 0 7\nreceive data 1.1 from 2\nreceive data 1.1 from 2\n"
          "begin {1.1}\n", "2.log": "receive data 1.1 from 1 # the first line of its log\n2 begin\nenter {1.1} ts 0\n"}, 0,
         "accepted: 3 members, 8 lines; instances 1, largest round 1, suspicions 0, choices between different ts 0, repetitions 1"),
    Case("a value that was not sent",
         {"1.log": ONE, "2.log": "receive data 1.1 from 1\nbegin\nenter\nreceive est 1/1 from 1 {1.2} ts 0\n"}, 1,
         "refused: 1.log line 5: enter: member 2 received {1.2} ts 0 (2.log line 4), and by this line it is {1.1} ts 0"),
    Case("a proposal before its choice",
         {"1.log": ONE + "receive prop 1/1 from 2\nadopt\n",
          "2.log": TWO.replace("choose 1\n", "receive ack 1/1 from 1\nchoose 1\n")}, 1,
         "refused: 1.log line 6: receive prop 1/1 from 2: it waits for a line that waits for it\n"
         "circle: 1.log line 6: receive prop 1/1 from 2: it waits for 2.log line 7: choose 1\n"
         "circle: 2.log line 6: receive ack 1/1 from 1: it waits for 1.log line 7: adopt"),
    Case("a torn last line", {**GOSSIP, "2.log": GOSSIP["2.log"] + "2 begin {1."}, 0,
         "accepted: 2 members, 3 lines; instances 0, largest round 0, suspicions 0, choices between different ts 0, repetitions 0\n"
         "note: 2.log line 2: 2 begin {1.: no line feed ends it, so it is left out"),
    Case("a line that is told, and a torn one", {"1.log": "members 2\nsubmit set 0 7\nreceive da", "2.log": "2 begin\n"}, 1,
         "refused: 2.log line 1: 2 begin: member 2 is refused Nothing\n"
         "note: 1.log line 3: receive da: no line feed ends it, so it is left out"),
    Case("a round after the decision",
         {"1.log": ONE + "receive prop 1/1 from 2\nadopt\nreceive dec 1/1 from 2\nreceive est 1/2 from 2\n",
          "2.log": TWO + "receive prop 1/1 from 2\nadopt\nreceive ack 1/1 from 1\nreceive ack 1/1 from 2\nconclude\n"
          "receive dec 1/1 from 2\n"}, 1,
         "refused: 1.log line 9: receive est 1/2 from 2: it was not sent before, and member 2 can't send it any more"),
    Case("a nack after the proposal", {"1.log": ONE + "receive prop 1/1 from 2\n", "2.log": TWO + "receive nack 1/1 from 1\n"}, 1,
         "refused: 2.log line 7: receive nack 1/1 from 1: it was not sent before, and member 1 can't send it any more"),
    Case("an ack where a nack was sent", {"1.log": ONE + "suspect\n", "2.log": TWO + "receive ack 1/1 from 1\n"}, 1,
         "refused: 2.log line 7: receive ack 1/1 from 1: it was not sent before, and member 1 can't send it any more: "
         "it sent nack 1/1 instead (1.log line 6)"),
    Case("an ack that may still come", {"1.log": ONE + "receive prop 1/1 from 2\n", "2.log": TWO + "receive ack 1/1 from 1\n"}, 6,
         "incomplete: 2.log line 7: receive ack 1/1 from 1: the log of member 1 ends before it is sent"),
    Case("a decision without a cell", {"1.log": "members 1\ncells 0\n" + ALONE}, 8,
         "limit: 1.log line 14: deliver: member 1 is refused Full(Cells): no cell is left; cells 1024 at the top of a log gives room for "
         "more; it accuses nobody"),
    Case("more instances than a member has", {"1.log": "members 1\ncells 1024\n" + "".join(instance(k) for k in range(1, 1026))}, 8,
         "limit: 1.log line 12293: begin: member 1 is refused Full(Instances): a member has at most 1024 instances; it accuses nobody"),
    Case("a decision with a cell", {"1.log": "members 1\ncells 1\n" + ALONE}, 0,
         "accepted: 1 member, 12 lines; instances 1, largest round 1, suspicions 0, choices between different ts 0, repetitions 0"),
    Case("a member that is not of the group", {"1.log": "members 2\n", "2.log": "3 begin\n"}, 2,
         "2.log: member 3's log, and members are 1 to 2"),
]

# What is told besides the first line.
BESIDES = [
    Case("two lines that are refused by themselves",
         {"1.log": "members 3\nsubmit set 0 7\nbegin\n", "2.log": "receive data 1.1 from 1 set 0 8\n",
          "3.log": "receive data 1.1 from 1 set 0 7\n"}, 1,
         "refused: 1.log line 3: begin: member 1 is refused Nothing\n"
         "also refused: 1.log line 2: submit set 0 7: member 2 received set 0 8 (2.log line 1), and by this line it is set 0 7"),
    Case("an ack where a nack was sent, besides a refusal",
         {"1.log": ONE + "suspect\nbegin\n", "2.log": TWO + "receive ack 1/1 from 1\n"}, 1,
         "refused: 1.log line 7: begin: member 1 is refused Busy\n"
         "also refused: 2.log line 7: receive ack 1/1 from 1: it was not sent before, and member 1 can't send it any more: "
         "it sent nack 1/1 instead (1.log line 6)"),
    Case("a limit besides a refusal",
         {"1.log": "members 3\ncells 0\nbegin\n",
          "2.log": "submit set 0 7\nreceive data 2.1 from 2\nbegin\nenter\nreceive est 1/1 from 2\nreceive est 1/1 from 3\nchoose 2\n"
                   "receive prop 1/1\nadopt\nreceive ack 1/1 from 2\nreceive ack 1/1 from 3\nconclude\nreceive dec 1/1 from 2\ndeliver\n",
          "3.log": "receive data 2.1 from 2\nbegin\nenter\nreceive prop 1/1\nadopt\n"}, 1,
         "refused: 1.log line 3: begin: member 1 is refused Nothing\n"
         "also limit: 2.log line 14: deliver: member 2 is refused Full(Cells): no cell is left; cells 1024 at the top of a log gives room "
         "for more; it accuses nobody"),
    Case("a circle of three",
         {"1.log": "members 3\nsubmit set 0 1\nreceive data 3.1 from 3\nsubmit set 0 2\n",
          "2.log": "receive data 1.2 from 1\nsubmit set 1 1\n", "3.log": "receive data 2.1 from 2\nsubmit set 2 1\n"}, 1,
         "refused: 3.log line 1: receive data 2.1 from 2: it waits for a line that waits for it\n"
         "circle: 3.log line 1: receive data 2.1 from 2: it waits for 2.log line 2: submit set 1 1\n"
         "circle: 2.log line 1: receive data 1.2 from 1: it waits for 1.log line 4: submit set 0 2\n"
         "circle: 1.log line 3: receive data 3.1 from 3: it waits for 3.log line 2: submit set 2 1"),
    Case("a line that waits for a log which is refused, and one that waits for that",
         {"1.log": "members 3\nbegin\nsubmit set 0 7\n", "2.log": "receive data 1.1 from 1\n", "3.log": "receive data 1.1 from 2\n"}, 1,
         "refused: 1.log line 2: begin: member 1 is refused Nothing\n"
         "waits: 2.log line 1: receive data 1.1 from 1: it waits for 1.log line 3: submit set 0 7\n"
         "waits: 3.log line 1: receive data 1.1 from 2: it waits for 2.log line 1: receive data 1.1 from 1"),
    Case("a line that a log ends before, and one that no line sends",
         {"1.log": "members 4\nbegin\n", "2.log": "receive data 3.1 from 3\n", "4.log": "4 receive data 1.1 from 1\n"}, 1,
         "refused: 1.log line 2: begin: member 1 is refused Nothing\n"
         "also incomplete: 2.log line 1: receive data 3.1 from 3: there is no log of member 3\n"
         "waits: 4.log line 1: 4 receive data 1.1 from 1: no line of 1.log sends it"),
    Case("three lines that are refused, each as another is stated",
         {"1.log": "members 3\nsubmit set 0 7\nreceive data 1.1 from 1 set 0 1\n", "2.log": "receive data 1.1 from 1 set 0 2\n",
          "3.log": "receive data 1.1 from 1 set 0 3\n"}, 1,
         "refused: 1.log line 2: submit set 0 7: member 1 received set 0 1 (1.log line 3), and by this line it is set 0 7\n"
         "also refused: 1.log line 2: submit set 0 7: member 2 received set 0 2 (2.log line 1), and by this line it is set 0 7\n"
         "also refused: 1.log line 2: submit set 0 7: member 3 received set 0 3 (3.log line 1), and by this line it is set 0 7"),
]

SEEN = "instances 1, largest round 1, suspicions 0, choices between different ts 0, repetitions 0"
NO_FACT = "not understood: a log expects one FACT a line, of its own member as it is there: expect FACT"

# What logs expect.
EXPECTED = [
    Case("expectations that hold",
         {"1.log": "members 1\nexpect 1 delivered -\n"
          + ALONE.replace("conclude\n", "conclude\nexpect phase Rest\nexpect 1 instance >= 1\n")
          + "expect 1 delivered 1.1\nexpect table 0=7\nexpect 1 refuses begin Nothing\nexpect up\nexpect may crash\n"}, 0,
         f"accepted: 1 member, 12 lines; {SEEN}"),
    Case("an expectation that does not hold", {"1.log": "members 1\n" + ALONE + "expect 1 delivered 1.1\nexpect 1 table 0=8\n"}, 1,
         "refused: 1.log line 15: expect 1 table 0=8: expected table 0=8, there is 0=7"),
    Case("one that holds a line later", {"1.log": "members 1\n" + ALONE.replace("deliver\n", "expect delivered 1.1\ndeliver\n")}, 1,
         "refused: 1.log line 13: expect delivered 1.1: expected delivered 1.1, there is -"),
    Case("a count that is not there", {**GOSSIP, "2.log": GOSSIP["2.log"] + "expect 2 received count 2\n"}, 1,
         "refused: 2.log line 2: expect 2 received count 2: expected received count 2, there is 1"),
    Case("a refusal for another reason", {**GOSSIP, "2.log": "expect refuses begin Busy\n" + GOSSIP["2.log"]}, 1,
         "refused: 2.log line 1: expect refuses begin Busy: expected refuses Busy, there is Nothing"),
    Case("a state behind a crash", {**GOSSIP, "2.log": GOSSIP["2.log"] + "crash\nexpect crashed\nexpect refuses begin Crashed\n"}, 0,
         "accepted: 2 members, 4 lines; instances 0, largest round 0, suspicions 0, choices between different ts 0, repetitions 0"),
    Case("an expectation that says whose log it is", {"a.log": "members 2\nexpect 2 received -\nbegin\n"}, 1,
         "refused: a.log line 3: begin: member 2 is refused Nothing"),
    Case("what is expected of another member", {**GOSSIP, "2.log": GOSSIP["2.log"] + "expect 1 up\n"}, 2,
         "2.log line 2: expect 1 up: member 1's, in the log of another"),
    Case("what is expected of all", {"1.log": "members 2\nexpect all received 1.1\n"}, 2,
         f"1.log line 2: expect all received 1.1: {NO_FACT}"),
    Case("what is expected of those that are up", {"1.log": "members 2\nexpect up received 1.1\n"}, 2,
         f"1.log line 2: expect up received 1.1: {NO_FACT}"),
    Case("what is never to be", {"1.log": "members 2\nexpect never 1 crashed\n"}, 2, f"1.log line 2: expect never 1 crashed: {NO_FACT}"),
    Case("two facts", {"1.log": "members 2\nexpect 1 up and 1 idle\n"}, 2, f"1.log line 2: expect 1 up and 1 idle: {NO_FACT}"),
    Case("a word that is no fact", {"1.log": "members 2\nexpect dlivered 1.1\n"}, 2,
         "1.log line 2: expect dlivered 1.1: not understood: dlivered is no fact; delivered?"),
    Case("a refusal that depends on the others",
         {"1.log": "members 2\n", "2.log": "expect 2 refuses receive data 1.1 from 1 NotThere\n"}, 2,
         "2.log line 1: expect 2 refuses receive data 1.1 from 1 NotThere: "
         "not understood: this refusal depends on the order of the others"),
    Case("a limit", {"1.log": "members 1\n1 begin\nexpect refuses begin Full(Steps)\n"}, 2,
         "1.log line 3: expect refuses begin Full(Steps): not understood: this refusal depends on the order of the others"),
    Case("what waits", {"1.log": "members 1\nexpect 1 waiting 0\n"}, 2,
         "1.log line 2: expect 1 waiting 0: not understood: this fact depends on the order of the others"),
    Case("whether all is done", {"1.log": "members 1\nexpect 1 settled\n"}, 2,
         "1.log line 2: expect 1 settled: not understood: this fact depends on the order of the others"),
    Case("whether nobody can move", {"1.log": "members 1\nexpect stuck\n"}, 2,
         "1.log line 2: expect stuck: not understood: this fact depends on the order of the others"),
    Case("the last step of the run", {"1.log": "members 1\nexpect 1 follows 1\n"}, 2,
         "1.log line 2: expect 1 follows 1: not understood: this fact depends on the order of the others"),
    Case("the first of several that do not hold",
         {"1.log": "members 2\nsubmit set 0 7\nexpect received 1.1\n", "2.log": "2 receive data 1.1 from 1\nexpect received -\nbegin\n"}, 1,
         "refused: 2.log line 2: expect received -: expected received -, there is 1.1"),
    Case("an expectation before the line that is refused", {"1.log": "members 2\nexpect idle\nexpect round 1\nbegin\nexpect round 2\n"}, 1,
         "refused: 1.log line 3: expect round 1: expected round 1, there is idle"),
    Case("one behind the line that is refused", {"1.log": "members 2\nbegin\nexpect round 1\n"}, 1,
         "refused: 1.log line 2: begin: member 1 is refused Nothing"),
    Case("an expectation before the line that is incomplete",
         {"1.log": "members 2\n", "2.log": "expect received 1.1\nreceive data 1.1 from 1\n"}, 1,
         "refused: 2.log line 1: expect received 1.1: expected received 1.1, there is -"),
    Case("one behind the line that is incomplete", {"1.log": "members 2\n", "2.log": "receive data 1.1 from 1\nexpect received -\n"}, 6,
         "incomplete: 2.log line 1: receive data 1.1 from 1: the log of member 1 ends before it is sent"),
    Case("an expectation that does not hold, and a torn line", {"1.log": "members 1\nexpect crashed\nsubmit set"}, 1,
         "refused: 1.log line 2: expect crashed: expected crashed, there is up\n"
         "note: 1.log line 3: submit set: no line feed ends it, so it is left out"),
]

PRESUME = ("--presume",)


def lost_tail() -> Dict[str, str]:
    """The logs of a cluster whose member 1 was killed; the last 16 lines of its log are lost."""
    folder = os.path.join(HERE, "presumed")
    logs = {}
    for name in sorted(os.listdir(folder)):
        with open(os.path.join(folder, name), encoding="utf-8") as file:
            logs[name] = file.read()
    return logs


PRESUMED = [
    Case("a submission that is lost", {"1.log": "members 2\n", "2.log": "receive data 1.1 from 1 set 0 7\n"}, 7,
         "presumed: 1 step of member 1; 2 members, 2 lines; instances 0, largest round 0, suspicions 0, choices between different ts 0, "
         "repetitions 0", PRESUME),
    Case("a submission of which the command is stated nowhere", {"1.log": "members 2\n", "2.log": "receive data 1.1 from 1\n"}, 6,
         "incomplete: 2.log line 1: receive data 1.1 from 1: the log of member 1 ends before it is sent", PRESUME),
    Case("a message that nobody received, and of which no command is stated",
         {"1.log": "members 3\nsubmit copy 12 1\n", "2.log": "receive data 1.1 from 1\nreceive data 3.2 from 3 set 0 7\n"}, 7,
         "presumed: 2 steps of member 3; 3 members, 5 lines; instances 0, largest round 0, suspicions 0, choices between different ts 0, "
         "repetitions 0", PRESUME),
    Case("a message of which two commands are stated",
         {"1.log": "members 3\n", "2.log": "receive data 1.1 from 1 set 0 7\n", "3.log": "receive data 1.1 from 1 set 0 8\n"}, 6,
         "incomplete: 3.log line 1: receive data 1.1 from 1 set 0 8: the log of member 1 ends before it is sent\n"
         "also incomplete: 2.log line 1: receive data 1.1 from 1 set 0 7: the log of member 1 ends before it is sent", PRESUME),
    Case("a message that a member without a log passes on",
         {"1.log": "members 3\nsubmit set 0 7\nreceive data 1.1 from 1\n", "3.log": "3 receive data 1.1 from 2\n"}, 7,
         "presumed: 1 step of member 2; 3 members, 4 lines; instances 0, largest round 0, suspicions 0, choices between different ts 0, "
         "repetitions 0", PRESUME),
    Case("an ack that is lost", {"1.log": ONE + "receive prop 1/1 from 2\n", "2.log": TWO + "receive ack 1/1 from 1\n"}, 7,
         "presumed: 1 step of member 1; 2 members, 13 lines; instances 1, largest round 1, suspicions 0, choices between different ts 0, "
         "repetitions 0", PRESUME),
    Case("what is expected before a step that is presumed",
         {"1.log": ONE + "receive prop 1/1 from 2\nexpect phase Wait\n", "2.log": TWO + "receive ack 1/1 from 1\n"}, 7,
         "presumed: 1 step of member 1; 2 members, 13 lines; instances 1, largest round 1, suspicions 0, choices between different ts 0, "
         "repetitions 0", PRESUME),
    Case("what is expected and is so behind one alone",
         {"1.log": ONE + "receive prop 1/1 from 2\nexpect phase Rest\n", "2.log": TWO + "receive ack 1/1 from 1\n"}, 1,
         "refused: 1.log line 7: expect phase Rest: expected phase Rest, there is Wait", PRESUME),
    Case("a nack that is lost", {"1.log": ONE, "2.log": TWO + "receive nack 1/1 from 1\n"}, 7,
         "presumed: 1 step of member 1; 2 members, 12 lines; instances 1, largest round 1, suspicions 1, choices between different ts 0, "
         "repetitions 0", PRESUME),
    Case("logs that are accepted as they are", GOSSIP, 0,
         "accepted: 2 members, 3 lines; instances 0, largest round 0, suspicions 0, choices between different ts 0, repetitions 0",
         PRESUME),
    Case("logs that are refused as they are", {"1.log": "members 2\nbegin\n", "2.log": "receive data 1.1 from 1 set 0 7\n"}, 1,
         "refused: 1.log line 2: begin: member 1 is refused Nothing\n"
         "waits: 2.log line 1: receive data 1.1 from 1 set 0 7: no line of 1.log sends it", PRESUME),
    Case("a cluster with a member killed whose last lines are lost", lost_tail(), 7,
         "presumed: 7 steps of member 1; 3 members, 138 lines; instances 3, largest round 4, suspicions 3, choices between different ts 0, "
         "repetitions 8", PRESUME),
    Case("the same without --presume", lost_tail(), 6,
         "incomplete: 2.log line 8: 2 receive est 1/1 from 1 {3.1} ts 0: the log of member 1 ends before it is sent\n"
         "waits: 3.log line 9: 3 receive prop 1/1 from 2 {3.1}: it waits for 2.log line 9: 2 choose 1 {3.1}"),
    Case("ends that are presumed of logs that are followed", GOSSIP, 3,
         "error: the argument '--presume' cannot be used with '--follow'\n\nUsage: ct_tool merge --presume <LOG>...\n\n"
         "For more information, try '--help'.", ("--presume", "--follow")),
]


class Growing(NamedTuple):
    """Logs that grow while they are followed: what stands there first, and what is appended later, to which log, or is done to its file."""
    name: str
    logs: Dict[str, str]
    later: Sequence[Tuple[str, Union[str, Callable[[str], None]]]]
    options: Sequence[str]
    status: int
    told: str


def replaced(path: str) -> None:
    """Another file has the name, at once."""
    with open(path + ".new", "w", encoding="utf-8") as file:
        file.write("2 begin\n" * 20)
    os.replace(path + ".new", path)


def shortened(path: str) -> None:
    os.truncate(path, len("members "))


CRASHED = {"1.log": GOSSIP["1.log"] + "crash\n", "2.log": GOSSIP["2.log"]}

GROWING = [
    Growing("lines that come", {"1.log": "", "2.log": ""},
            [("2.log", GOSSIP["2.log"]), *[("1.log", f"{line}\n") for line in GOSSIP["1.log"].splitlines()]], ("--idle", "1"), 0,
            "accepted: 2 members, 3 lines; instances 0, largest round 0, suspicions 0, choices between different ts 0, repetitions 0"),
    Growing("a line that is refused at once", GOSSIP, [("2.log", "2 begin\n2 begin\n")], (), 1,
            "refused: 2.log line 3: 2 begin: member 2 is refused Busy"),
    Growing("a line that is refused once its log has come to it", {**GOSSIP, "1.log": "members 2\nsubmit set 0 8\n"}, [], (), 1,
            "refused: 1.log line 2: submit set 0 8: member 2 received set 0 7 (2.log line 1), and by this line it is set 0 8"),
    Growing("a line that waits, and is refused in the end", {**GOSSIP, "2.log": "2 receive data 1.2 from 1\n"}, [("1.log", "crash\n")],
            ("--idle", "1"), 1,
            "refused: 2.log line 1: 2 receive data 1.2 from 1: it was not sent before, and member 1 can't send it any more"),
    Growing("a log that ends too early", {**GOSSIP, "2.log": "2 receive data 1.2 from 1\n"}, [], ("--idle", "1"), 6,
            "incomplete: 2.log line 1: 2 receive data 1.2 from 1: the log of member 1 ends before it is sent"),
    Growing("a torn line that is completed", {**GOSSIP, "2.log": "2 receive data 1.1 fr"},
            [("2.log", "om 1 set 0 7\n")], ("--idle", "1"), 0,
            "accepted: 2 members, 3 lines; instances 0, largest round 0, suspicions 0, choices between different ts 0, repetitions 0"),
    Growing("a torn line that stays so", {**GOSSIP, "2.log": "2 receive data 1.1 fr"}, [], ("--idle", "1"), 0,
            "accepted: 2 members, 2 lines; instances 0, largest round 0, suspicions 0, choices between different ts 0, repetitions 0\n"
            "note: 2.log line 1: 2 receive data 1.1 fr: no line feed ends it, so it is left out"),
    Growing("all crash", CRASHED, [("2.log", "crash\n")], (), 0,
            "accepted: 2 members, 5 lines; instances 0, largest round 0, suspicions 0, choices between different ts 0, repetitions 0"),
    Growing("no members", {"1.log": "submit set 0 7\nreceive data 1.1 from 1\n", "2.log": GOSSIP["2.log"]}, [], ("--idle", "1"), 0,
            "accepted: 2 members, 3 lines; instances 0, largest round 0, suspicions 0, choices between different ts 0, repetitions 0"),
    Growing("another number of the group", GOSSIP, [("2.log", "members 3\n")], (), 2,
            "2.log: members 3, and a log before it has members 2"),
    Growing("a log without lines, of a member that the group hasn't", {**GOSSIP, "3.log": ""}, [], ("--idle", "1"), 2,
            "3.log: member 3's log, and members are 1 to 2"),
    Growing("a proposal without its sender", {"1.log": ONE + "receive prop 1/1\n", "2.log": TWO[:TWO.index("choose")]},
            [("2.log", "choose 1\n")], ("--idle", "1"), 0,
            "accepted: 2 members, 11 lines; instances 1, largest round 1, suspicions 0, choices between different ts 0, repetitions 0"),
    Growing("expectations that hold", {**GOSSIP, "2.log": "expect 2 received -\n"},
            [("2.log", GOSSIP["2.log"] + "expect received 1.1\n")], ("--idle", "1"), 0,
            "accepted: 2 members, 3 lines; instances 0, largest round 0, suspicions 0, choices between different ts 0, repetitions 0"),
    Growing("an expectation that does not hold in the end", GOSSIP, [("2.log", "expect received -\n"), ("2.log", "crash\n")],
            ("--idle", "1"), 1, "refused: 2.log line 2: expect received -: expected received -, there is 1.1"),
    Growing("a log that a later line says whose it is", GOSSIP, [("1.log", "2 begin\n")], (), 2,
            "1.log line 4: 2 begin: member 2's, in the log of another: the first act of a log that is followed says whose it is"),
    Growing("a word that is no act", GOSSIP, [("2.log", "2 bgin\n")], (), 2,
            "2.log line 2: 2 bgin: not understood: bgin is no act; begin?"),
    Growing("a file that is replaced", GOSSIP, [("2.log", replaced)], (), 4, "2.log: replaced"),
    Growing("a file that is removed", GOSSIP, [("2.log", os.remove)], (), 4, "2.log: removed"),
    Growing("a file that gets shorter", GOSSIP, [("1.log", shortened)], (), 4,
            "1.log: shorter than what was read of it"),
]


def ran(words: List[str], folder: str, seconds: int = SECONDS) -> "subprocess.CompletedProcess[bytes]":
    return subprocess.run(words, cwd=folder, stdin=subprocess.DEVNULL, stdout=subprocess.PIPE, stderr=subprocess.PIPE, timeout=seconds)


def faults_of(tool: str, case: Case) -> List[str]:
    """What is wrong with what the tool says of the case."""
    with tempfile.TemporaryDirectory() as folder:
        for name, text in case.logs.items():
            with open(os.path.join(folder, name), "w", encoding="utf-8") as file:
                file.write(text)
        done = ran([tool, "merge", *case.options, *case.logs], folder)
        wrong = [] if done.returncode == case.status else [f"status {done.returncode}, not {case.status}"]
        told = done.stderr.decode().rstrip("\n")
        wrong += [] if told == case.told else [f"it tells '{told}', not '{case.told}'"]
        if case.status not in WRITTEN:
            return wrong + (["something is written"] if done.stdout else [])
        return wrong + faults_of_written(tool, case, folder, done.stdout)


def faults_of_written(tool: str, case: Case, folder: str, schedule: bytes) -> List[str]:
    """What is wrong with the run that is written: of its schedule `record` makes the record that --record writes."""
    with open(os.path.join(folder, "run.schedule"), "wb") as file:
        file.write(schedule)
    made = ran([tool, "record", "run.schedule"], folder)
    written = ran([tool, "merge", "--record", *case.options, *case.logs], folder)
    if made.returncode or not made.stdout:
        return [f"of its schedule no record is made: {made.stderr.decode()}"]
    return [] if made.stdout == written.stdout else ["of its schedule another record is made than is written"]


def faults_of_growing(tool: str, case: Growing) -> List[str]:
    """What is wrong with what the tool says of logs that grow; of those that are accepted it writes what it writes of them as a whole."""
    with tempfile.TemporaryDirectory() as folder:
        for name, text in case.logs.items():
            with open(os.path.join(folder, name), "w", encoding="utf-8") as file:
                file.write(text)
        words = [tool, "merge", "--follow", *case.options, *case.logs]
        with subprocess.Popen(words, cwd=folder, stdin=subprocess.DEVNULL, stdout=subprocess.PIPE, stderr=subprocess.PIPE) as running:
            for name, text in case.later:
                time.sleep(MOMENT)
                path = os.path.join(folder, name)
                if callable(text):
                    text(path)
                    continue
                with open(path, "a", encoding="utf-8") as file:
                    file.write(text)
            try:
                output, told = running.communicate(timeout=SECONDS)
            except subprocess.TimeoutExpired:
                running.kill()
                return ["it doesn't end"]
        wrong = [] if running.returncode == case.status else [f"status {running.returncode}, not {case.status}"]
        said = told.decode().rstrip("\n")
        wrong += [] if said == case.told else [f"it tells '{said}', not '{case.told}'"]
        whole = ran([tool, "merge", *case.logs], folder)
        if case.status == 0 and sorted(output.splitlines()) != sorted(whole.stdout.splitlines()):
            wrong.append("of the whole logs something else is written")
        return wrong + (["something is written"] if case.status and output else [])


class Run(NamedTuple):
    """A run of the cluster: its options, the status that it ends with, what a line that it tells has, and what its logs have. One of so
    many runs has to be so. blocks: how large a file may be."""
    name: str
    options: str
    status: int
    told: str
    shown: Sequence[str] = ()
    runs: int = 1
    blocks: str = "unlimited"


def mistake(name: str, act: str) -> Run:
    """The mistake is found at the act that is wrong. Members suspect each other often: with one round an instance all estimates have the
    same ts."""
    return Run(f"the mistake {name}", f"--break {name} --timeout 0.005 --growth 0.0002", 1, rf": refused: .* line \d+: \d {act} ", runs=3)


RUNS = [
    Run("a member killed", "--kill 1 --submit 40 --batch 64", 0,
        r"run 1: 1 of 3 killed, [1-9]\d* lines, [1-9]\d* deliveries, .*: accepted", [r"\{(\d+\.\d+,){8,}\d+\.\d+\}"]),
    Run("datagrams lost", "--members 4 --submit 2 --seconds 5 --loss 0.2 --delay 0.02 --timeout 0.5", 0,
        r"run 1: 0 of 4 killed, \d+ lines, 32 deliveries, .*: accepted", [r"receive data (\d)\.\d from (?!\1)"], 3),
    Run("no room for logs", "--seconds 0.5", 2, r"member \d ended with status 1: ", blocks="1"),
    mistake("least-ts", "choose"), mistake("half", "choose"), mistake("arrival", "deliver"),
]


def faults_of_run(tool: str, case: Run) -> List[str]:
    words = ["sh", "-c", f'ulimit -f {case.blocks}; exec "$@"', "sh", sys.executable, os.path.join(CLUSTER, "run.py"), "--tool", tool,
             *case.options.split(), "--keep", "kept"]
    for _ in range(case.runs):
        with tempfile.TemporaryDirectory() as folder:
            done = ran(words, folder, SECONDS_OF_RUNS)
            told = (done.stdout + done.stderr).decode()
            logs = "".join(path.read_text(encoding="utf-8") for path in pathlib.Path(folder).glob("kept/*/*.log"))
        wrong = [f"status {done.returncode}, not {case.status}"] if done.returncode != case.status else []
        wrong += [] if re.search(case.told, told) else [f"it tells '{told}'"]
        wrong += [f"no log has {pattern}" for pattern in case.shown if not re.search(pattern, logs)]
        if not wrong:
            break
    return wrong


def faults_of_detector() -> List[str]:
    """Who isn't heard is suspected; who then is heard is given more time."""
    judge = Detector([2], 0.0, SECONDS)
    time.sleep(MOMENT)
    is_suspected = judge.suspects(2)
    judge.heard(2)
    time.sleep(MOMENT)
    seen = [is_suspected, judge.suspects(2)]
    return [] if seen == [True, False] else [f"suspected before it is heard and behind it: {seen}"]


def faults_of_restart() -> List[str]:
    """A member of the cluster writes no log anew."""
    words = [sys.executable, os.path.join(CLUSTER, "node.py"), "--member", "1", "--ports", "0", "--log", "1.log", "--seconds", "0"]
    with tempfile.TemporaryDirectory() as folder:
        statuses = [ran(words, folder).returncode for _ in range(2)]
    return [] if statuses == [0, 1] else [f"it ends with status {statuses[0]}, and started again with status {statuses[1]}"]


def faults_of_program(tool: str, folder_of_source: str, compiler: List[str]) -> List[str]:
    """The log that the program in another language writes is accepted, and delivers ten messages; it writes no log anew."""
    with tempfile.TemporaryDirectory() as folder:
        source = os.path.join(HERE, "..", "examples", folder_of_source)
        for words in ([*compiler, "-o", "log_demo", source], ["./log_demo", "1.log"]):
            done = ran(words, folder, SECONDS_OF_RUNS)
            if done.returncode:
                return [f"{words[0]}: {done.stderr.decode()}"]
        if ran(["./log_demo", "1.log"], folder).returncode != 1:
            return ["a log that is there is opened again"]
        done = ran([tool, "merge", "1.log"], folder)
        is_right = done.returncode == 0 and re.search(r"^expect 1 delivered 1\.1 .*1\.10$", done.stdout.decode(), re.MULTILINE)
        return [] if is_right else [f"status {done.returncode}: {done.stderr.decode()}"]


def faults_of_search(tool: str) -> List[str]:
    """The search through all orders comes to the same verdicts, and to each of them."""
    program = os.path.join(HERE, "..", "bench", "merge_search.py")
    done = ran([sys.executable, program, "--tool", tool, "--sets", str(SETS)], HERE, SECONDS_OF_RUNS)
    last = (done.stdout.decode().splitlines() or [done.stderr.decode()])[-1]
    return [] if re.fullmatch(r"[1-9]\d* accepted, [1-9]\d* refused, [1-9]\d* incomplete; 0 differences", last) else [last]


def main() -> int:
    tool = os.path.abspath(sys.argv[1])
    checks = [(case.name, faults_of(tool, case)) for case in CASES + BESIDES + EXPECTED + PRESUMED]
    checks += [(f"followed: {case.name}", faults_of_growing(tool, case)) for case in GROWING]
    in_c = ["cc", "-std=c11", "-Wall", "-Wextra", "-Werror"]
    in_rust = ["rustc", "--edition", "2021", "-D", "warnings", "-A", "dead_code"]
    checks.append(("the log of a program in C", faults_of_program(tool, "c/log_demo.c", in_c)))
    checks.append(("the log of a program in Rust", faults_of_program(tool, "rust/log_demo.rs", in_rust)))
    checks += [(f"a cluster: {case.name}", faults_of_run(tool, case)) for case in RUNS]
    checks.append(("a cluster: a member that starts again", faults_of_restart()))
    checks.append(("a cluster: a suspicion by mistake", faults_of_detector()))
    checks.append(("a search through all orders", faults_of_search(tool)))
    for name, wrong in checks:
        if wrong:
            print(f"FAILED logs, {name}: {'; '.join(wrong)}")
    failed = sum(1 for _, wrong in checks if wrong)
    print(f"{len(checks) - failed} passed, {failed} failed")
    return 1 if failed else 0


if __name__ == "__main__":
    sys.exit(main())
