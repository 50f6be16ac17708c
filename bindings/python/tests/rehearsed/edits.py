"""Members with mistakes, and members that differ from the article without harm: edits of the right ones, each a text and what is put in its
place."""
from __future__ import annotations

import os
import sys
from types import ModuleType
from typing import Any, Dict, List, NamedTuple, Sequence, Tuple

from malletochre.drive import Rules

Edit = Tuple[str, str]
HERE = os.path.dirname(os.path.abspath(__file__))
STYLES = ("handlers", "actor", "task")


class Mutant(NamedTuple):
    wrong: str
    edits: Dict[str, List[Edit]]   # by style
    members: int = 3


class Variant(NamedTuple):
    what: str
    edits: List[Edit]              # of handlers.py
    options: Dict[str, Any]        # with which it passes
    told: str = "lockstep"         # the level at which it is told without its rule


def member(style: str, edits: Sequence[Edit] = ()) -> Tuple[Any, Any]:
    """The member of this style with these edits, and its `wire`."""
    path = os.path.join(HERE, f"{style}.py")
    with open(path, encoding="utf-8") as file:
        text = file.read()
    for old, new in edits:
        if old not in text:
            raise ValueError(f"{style}: not there: {old}")
        text = text.replace(old, new)
    module = ModuleType(f"rehearsed.{style}_edited")
    sys.modules[module.__name__] = module
    exec(compile(text, path, "exec"), module.__dict__)
    return module.Member, module.wire


MUTANTS: Dict[str, Mutant] = {
    "majority_off_by_one": Mutant("a majority is n // 2", {
        "handlers": [("return self.n // 2 + 1", "return self.n // 2")],
        "task": [(f"2 * {it} > self.n", f"2 * {it} >= self.n - 1") for it in ("len(heard)", "len(replies)", "sum(replies.values())")],
        "actor": [("count >= self.n // 2 + 1", "count >= self.n // 2")]}),
    "ts_not_set": Mutant("ts stays at an ack", {
        "handlers": [("self.estimate, self.ts = self.proposals[at], self.r", "self.estimate = self.proposals[at]")],
        "task": [("value, ts = self.proposals[k, r], r", "value = self.proposals[k, r]")],
        "actor": [("self.estimate, self.ts = proposal, self.r", "self.estimate = proposal")]}),
    "proposes_its_own": Mutant("the coordinator proposes its own estimate", {
        "handlers": [("self.estimate = max(heard.values(), key=lambda m: m.ts).value", "pass")],
        "task": [("value = max(heard.values(), key=lambda m: m[\"ts\"])[\"v\"]", "pass")],
        "actor": [("        self.estimate = next(estimate for q, (t, estimate) in sorted(estimates.items()) if t == ts)\n", "")]}),
    "estimate_kept_at_choice": Mutant("the coordinator takes what it proposes over once that comes back, no earlier", {
        "handlers": [("self.estimate = max(heard.values()", "proposed = max(heard.values()"),
                     ('"prop", self.k, self.r, self.me, self.estimate', '"prop", self.k, self.r, self.me, proposed')],
        "task": [("value = max(heard.values()", "proposed = max(heard.values()"),
                 ('type="prop", k=k, r=r, v=value', 'type="prop", k=k, r=r, v=proposed')],
        "actor": [("self.estimate = next(", "proposed = next("),
                  ('("prop", self.k, self.r, self.estimate)', '("prop", self.k, self.r, proposed)')]}),
    "nack_not_sent": Mutant("a suspicion sends no nack", {
        "handlers": [('self.send(c, Msg("nack", self.k, self.r, self.me))', "pass")],
        "task": [('self.send(c, type="nack", k=k, r=r, p=self.me)', "pass")],
        "actor": [('self.out.send(self.coordinator(), ("reply"', 'if proposal: self.out.send(self.coordinator(), ("reply"')]}),
    "stale_estimates_counted": Mutant("estimates of earlier rounds count", {
        "handlers": [("heard = self.estimates.get((self.k, self.r), {})",
                      "heard = {q: m for r in range(1, self.r + 1) for q, m in self.estimates.get((self.k, r), {}).items()}")],
        "task": [("heard = self.estimates[k, r]", "heard = self.estimates[k, 0]"),
                 ("self.estimates[at].setdefault(m[\"p\"], m)", "self.estimates[m[\"k\"], 0][m[\"p\"]] = m")],
        "actor": [("estimates = self.round(self.r).estimates", "estimates = self.round(0).estimates"),
                  ("it.estimates.setdefault(source, (ts, estimate))", "self.round(0).estimates[source] = ts, estimate")]}),
    "nacks_count_as_acks": Mutant("a majority of replies decides", {
        "handlers": [('if replies[q] == "ack"]', "]")],
        "task": [("2 * sum(replies.values()) > self.n", "2 * len(replies) > self.n")],
        "actor": [("self.is_majority(sum(replies.values()))", "self.is_majority(len(replies))")]}),
    "decision_not_relayed": Mutant("a decision is not sent on", {
        "handlers": [("                if self.coordinator(m.r) != self.me:\n                    self.send(ALL, m)\n", "")],
        "task": [("                if m[\"r\"] % self.n + 1 != self.me:\n                    self.out.send(ALL, packet)\n", "")],
        "actor": [("if origin != self.me:", "if origin != self.me and ident[0] != \"dec\":")]}),
    "relays_its_own": Mutant("the origin sends its own message on, too", {
        "handlers": [("if message[0] != self.me:", "if True:")],
        "task": [("if int(m[\"name\"].split(\".\")[0]) != self.me:", "if True:")],
        "actor": [("        if origin != self.me:\n", "        if True:\n")]}),
    "relays_each_time": Mutant("a message is sent on each time that it comes", {
        "handlers": [("                if message[0] != self.me:\n                    self.send(ALL, m)",
                      "            if message[0] != self.me:\n                self.send(ALL, m)")],
        "task": [("                if int(m[\"name\"].split(\".\")[0]) != self.me:\n                    self.out.send(ALL, packet)",
                  "            if int(m[\"name\"].split(\".\")[0]) != self.me:\n                self.out.send(ALL, packet)")],
        "actor": [("        if ident in self.got:\n            return\n", "")]}),
    "order_not_sorted": Mutant("a batch is delivered by number, then origin", {
        "handlers": [("for message in sorted(value):", "for message in sorted(value, key=lambda m: (m[1], m[0])):")],
        "task": [("self.decisions[self.k].items(), key=order)", "self.decisions[self.k].items(), key=lambda m: order(m)[::-1])")],
        "actor": [("for ident, command in value:", "for ident, command in sorted(value, key=lambda m: m[0][::-1]):")]}),
    "forgets_what_was_delivered": Mutant("what is delivered is dropped from what was received: a late copy is new again", {
        "handlers": [("                self.delivered.append(message)\n",
                      "                self.delivered.append(message)\n                self.received.discard(message)\n")],
        "task": [("                    self.delivered[name] = command\n",
                  "                    self.delivered[name] = command\n                    self.messages.pop(name, None)\n")],
        "actor": [("self.done[ident] = command\n", "self.done[ident] = command\n                self.rb.got.discard(ident)\n")]}),
    "estimate_not_kept": Mutant("each round begins with what is pending then", {
        "handlers": [("            self.r += 1\n", "            self.r += 1\n            self.estimate = self.pending()\n")],
        "task": [("            r += 1\n", "            r += 1\n            value = self.undelivered()\n")],
        "actor": [("        self.r += 1\n", "        self.r += 1\n        self.estimate = self.pending()\n"),
                  ("self.instance(self.k).propose(", "self.instance(self.k).__dict__['pending'] = self.pending\n"
                   "                self.instance(self.k).propose(")]}),
    "proposes_before_quorum": Mutant("the coordinator proposes after one estimate", {
        "handlers": [("if len(heard) < self.majority():", "if not heard:")],
        "task": [("2 * len(heard) > self.n", "heard")],
        "actor": [("if not self.is_majority(len(estimates)):", "if not estimates:")]}),
    "coordinator_counts_from_0": Mutant("the coordinator of round r is (r - 1) mod n + 1", {
        "handlers": [("return r % self.n + 1", "return (r - 1) % self.n + 1")],
        "task": [("c = r % self.n + 1", "c = (r - 1) % self.n + 1"), ("m[\"r\"] % self.n + 1", "(m[\"r\"] - 1) % self.n + 1")],
        "actor": [("return self.r % self.n + 1", "return (self.r - 1) % self.n + 1")]}),
    "instance_advanced_too_early": Mutant("a coordinator that decides goes on to the next instance before it delivers", {
        "handlers": [('            self.send(ALL, Msg("dec", self.k, self.r, self.me, self.estimate))\n        self.phase = "rest"',
                      '            self.send(ALL, Msg("dec", self.k, self.r, self.me, self.estimate))\n'
                      '        self.phase = None if len(acks) >= self.majority() else "rest"')],
        "task": [("self.send(ALL, type=\"dec\", k=k, r=r, v=value)",
                  "self.send(ALL, type=\"dec\", k=k, r=r, v=value)\n                    self.decisions[k] = {}")],
        "actor": [("            self.rb.broadcast((\"dec\", self.k, self.r), self.estimate)",
                   "            self.rb.broadcast((\"dec\", self.k, self.r), self.estimate)\n            self.decision = ()")]}),
    "later_rounds_dropped": Mutant("what is of a round to come is dropped", {
        "handlers": [("            self.estimates.setdefault(at, {}).setdefault(m.source, m)",
                      "            if at <= (self.k, self.r): self.estimates.setdefault(at, {}).setdefault(m.source, m)")],
        "task": [("            self.estimates[at].setdefault(m[\"p\"], m)",
                  "            if at in self.estimates: self.estimates[at].setdefault(m[\"p\"], m)")],
        "actor": [("        it = self.round(r)\n", "        if r > self.r: return\n        it = self.round(r)\n")]}),
    "suspects_for_ever": Mutant("a member that was suspected once is suspected for ever", {
        "handlers": [("self.suspected.discard(q)", "pass")],
        "task": [("self.suspected.discard(q)", "pass")],
        "actor": [("self.suspected.discard(q)", "pass")]}),
    "own_decision_at_once": Mutant("a coordinator takes its decision before it comes back", {
        "handlers": [('            self.send(ALL, Msg("dec", self.k, self.r, self.me, self.estimate))',
                      '            self.send(ALL, Msg("dec", self.k, self.r, self.me, self.estimate))\n'
                      '            self.decisions[self.k] = self.estimate')],
        "task": [("self.send(ALL, type=\"dec\", k=k, r=r, v=value)",
                  "self.send(ALL, type=\"dec\", k=k, r=r, v=value)\n                    self.decisions.setdefault(k, value)")],
        "actor": [("            self.rb.broadcast((\"dec\", self.k, self.r), self.estimate)",
                   "            self.rb.broadcast((\"dec\", self.k, self.r), self.estimate)\n            self.decision = self.estimate")]}),
    "waits_for_all": Mutant("the coordinator waits for each member's estimate", {
        "handlers": [("if len(heard) < self.majority():", "if len(heard) < self.n:")]}),
    "relays_one_decision": Mutant("of an instance one decision alone is sent on", {
        "handlers": [("            if at not in self.relayed:\n                self.relayed.add(at)\n",
                      "            if m.k not in [it[0] for it in self.relayed]:\n                self.relayed.add(at)\n")]}),
    "half_is_a_majority": Mutant("of four members two are a majority", {
        "handlers": [("return self.n // 2 + 1", "return (self.n + 1) // 2")]}, 4),
    "ack_counted_twice": Mutant("an ack that comes again counts again", {
        "handlers": [("self.replies.setdefault(at, {}).setdefault(m.source, m.type)",
                      "self.replies.setdefault(at, {})[m.source, len(self.replies[at])] = m.type")]}),
    "sum_wraps": Mutant("a register at the top becomes 0", {
        "handlers": [("execute(self.table, message[2])", "execute(self.table, message[2])\n"
                      "                self.table = [it % (2**64 - 1) for it in self.table]")]}),
    "late_proposal_adopted": Mutant("a proposal of an earlier round is taken for this one's", {
        "handlers": [("        if at in self.proposals:\n",
                      "        at = max((it for it in self.proposals if it[0] == self.k), default=at)\n"
                      "        if at in self.proposals:\n")]}),
    "later_decisions_dropped": Mutant("a decision of an instance to come is dropped", {
        "handlers": [("            self.decisions.setdefault(m.k, m.value)\n",
                      "            if m.k <= self.k: self.decisions.setdefault(m.k, m.value)\n")]}),
    "proposal_not_taken_over": Mutant("an ack leaves the estimate as it is", {
        "handlers": [("self.estimate, self.ts = self.proposals[at], self.r", "self.ts = self.r")]}),
    "ts_kept_across_instances": Mutant("ts isn't 0 again in the next instance", {
        "handlers": [("self.r, self.ts, self.estimate, self.phase = 0, 0, self.pending(), \"rest\"",
                      "self.r, self.estimate, self.phase = 0, self.pending(), \"rest\"")]}),
    "least_ts": Mutant("the coordinator proposes an estimate with the least ts", {
        "handlers": [("max(heard.values()", "min(heard.values()")]}),
}
# Found among the records of examples/: by default no seed comes as far.
OF_TWO_DIGITS: Dict[str, Mutant] = {
    "ten_messages": Mutant("a batch is delivered in the order of texts, 1.10 before 1.9", {
        "handlers": [("for message in sorted(value):", "for message in sorted(value, key=lambda m: f\"{m[0]}.{m[1]}\"):")],
        "task": [("sorted(self.decisions[self.k].items(), key=order)", "sorted(self.decisions[self.k].items())")],
        "actor": [("for ident, command in value:", "for ident, command in sorted(value, key=lambda m: \"%d.%d\" % m[0]):")]}),
    "eleven_rounds": Mutant("ts are compared as texts, 9 is more than 10", {
        "handlers": [("key=lambda m: m.ts", "key=lambda m: str(m.ts)")],
        "task": [("key=lambda m: m[\"ts\"]", "key=lambda m: str(m[\"ts\"])")],
        "actor": [("ts = max(ts for ts, _ in estimates.values())", "ts = max((ts for ts, _ in estimates.values()), key=str)")]}),
}
SPLIT: List[Edit] = [("    def on_receive(self, m: Msg) -> List[Effect]:\n",
                      "    def on_receive(self, packet):\n        for m in packet if isinstance(packet, tuple) else [packet]:\n"
                      "            self.take(m)\n        return self.effects()\n\n    def take(self, m):\n"),
                     ("            self.replies.setdefault(at, {}).setdefault(m.source, m.type)\n        return self.effects()\n",
                      "            self.replies.setdefault(at, {}).setdefault(m.source, m.type)\n")]
LAST = ("        out, self.out = self.out, []\n",
        "        out, self.out = self.out, []\n"
        "        self.last = [it for it in out if isinstance(it, Send)][-1:] or getattr(self, 'last', [])\n")
SUSPECTED = "        self.suspected.add(q)\n"
VARIANTS: Dict[str, Variant] = {
    "own_letters_inside": Variant("what it sends to itself it deals with inside", [
        *SPLIT, ("        self.out.append(Send(to, m))\n",
                 "        if to != self.me:\n            self.out.append(Send(to, m))\n"
                 "        if to in (ALL, self.me):\n            self.take(m)\n")],
        {"rules": Rules(is_local=True)}),
    "waits_longer": Variant("the coordinator of round 1 waits for one estimate more than a majority, unless it suspects somebody", [
        ("if len(heard) < self.majority():", "if len(heard) < self.majority() + (self.r == 1 and self.n > 2 and not self.suspected):")],
        {}, "exact"),
    "one_decision": Variant("of an instance one decision alone is sent on", MUTANTS["relays_one_decision"].edits["handlers"],
                            {"rules": Rules(withholds=frozenset({"dec"}))}),
    "lazy_decisions": Variant("a decision is sent on once somebody is suspected", [
        ("                if self.coordinator(m.r) != self.me:\n                    self.send(ALL, m)\n",
         "                if self.coordinator(m.r) != self.me:\n                    self.lazy = getattr(self, 'lazy', []) + [m]\n"),
        (SUSPECTED, SUSPECTED + "        for m in self.__dict__.pop('lazy', []):\n            self.send(ALL, m)\n")],
        {"rules": Rules(withholds=frozenset({"dec"}))}),
    "no_relays": Variant("nothing is sent on", [("                    self.send(ALL, m)\n", "                    pass\n")],
                         {"rules": Rules(withholds=frozenset({"dec", "data"}))}),
    "resends": Variant("what was sent last is sent again at a suspicion", [
        (SUSPECTED, SUSPECTED + "        self.out += getattr(self, 'last', [])\n"), LAST], {"rules": Rules(resends=True)}),
    "own_detector": Variant("its own failure detector, that suspects another one, too", [
        (SUSPECTED, "        self.suspected |= {q, q % self.n + 1}\n"),
        ("self.suspected.discard(q)", "self.suspected -= {q, q % self.n + 1}")],
        {"rules": Rules(own_detector=True)}),
    "packets": Variant("what goes to one member at a time goes in one packet", [
        *SPLIT, ("        out, self.out = self.out, []\n        return out\n",
                 "        out, self.out = self.out, []\n        by = {}\n        for it in out:\n            if isinstance(it, Send):\n"
                 "                for q in range(1, self.n + 1) if it.to == ALL else [it.to]:\n"
                 "                    by.setdefault(q, []).append(it.packet)\n"
                 "        return [it for it in out if isinstance(it, Deliver)] + [Send(q, tuple(all)) for q, all in by.items()]\n"),
        ("def wire(m: Msg) -> Letter:\n", "def wire(packet):\n    return [letter(m) for m in packet]\n\n\ndef letter(m):\n")], {}, ""),
    "finishes_its_round": Variant("a member that has the decision does first what it still can in its round", [
        ("    def step(self) -> bool:\n",
         "    def step(self):\n        is_in = self.phase in (\"gather\", \"wait\", \"tally\")\n"
         "        decision = self.decisions.pop(self.k, None) if is_in else None\n"
         "        went_on = self.go_on()\n        if decision is not None:\n            self.decisions[self.k] = decision\n"
         "        return went_on or decision is not None and self.go_on()\n\n    def go_on(self):\n")], {}, ""),
    "no_first_estimates": Variant("round 1 has no estimates: its coordinator proposes its own", [
        ("            self.send(c, Msg(\"est\", self.k, self.r, self.me, self.estimate, self.ts))\n",
         "            if self.r > 1: self.send(c, Msg(\"est\", self.k, self.r, self.me, self.estimate, self.ts))\n"),
        ("        if len(heard) < self.majority():\n            return False\n        self.estimate = max(",
         "        if self.r > 1 and len(heard) < self.majority():\n            return False\n        if self.r > 1: self.estimate = max(")],
        {"level": "observable"}),
}
# It may never deliver: the coordinator that it waits for has delivered and gone.
WAITS_FOR_ITS_ROUND: List[Edit] = [("elif self.k in self.decisions:", "elif self.k in self.decisions and self.phase == \"rest\":")]
