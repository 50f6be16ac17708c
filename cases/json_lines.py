#!/usr/bin/env python3
"""Whether the JSON of a run fits its schema and tells what the lines for people tell.

    json_lines.py TOOL RECORD..        TOOL is the built program ct_tool

Of each record the lines of `steps --json` and of `state --json`, after all steps and after a part of them, have to fit
docs/steps.schema.json and docs/state.schema.json. Made into text, they have to be the lines of `steps` and `state`. Prints what is
wrong, and ends with status 0 only where nothing is. Needs the package jsonschema, of 4.0 or later.
"""
import json
import pathlib
import subprocess
import sys

import jsonschema

DOCS = pathlib.Path(__file__).resolve().parent.parent / "docs"
MOST_SHOWN = 8


# ---- the text of what is told

def value_text(messages):
    more = len(messages) - MOST_SHOWN
    return "{" + ",".join(messages[:MOST_SHOWN]) + (f" and {more} more" if more > 0 else "") + "}"


def estimate_text(estimate):
    return f"{value_text(estimate['value'])} ts {estimate['timestamp']}"


def command_text(command):
    name, first, second = command
    return f"{name} {first} {second}"


def act_text(entry):
    """The step without its member, as a schedule has it; an envelope by its serial."""
    name, _, *rest = entry
    if name == "submit":
        rest = [command_text(*rest)]
    elif name != "choose":
        rest = [f"#{serial}" for serial in rest]
    return " ".join([name, *map(str, rest)])


def entry_text(entry):
    return f"{entry[1]} {act_text(entry)}"


def carried_text(it):
    if "kind" not in it:
        return "not sent"
    if it["kind"] == "Data":
        return f"data {it['message']}"
    text = f"{it['kind'].lower()} {it['instance']}/{it['round']}"
    if "from" in it:
        text += f" from {it['from']}"
    if "value" in it:
        text += " " + value_text(it["value"])
    return text + (f" ts {it['timestamp']}" if "timestamp" in it else "")


def envelope_text(it):
    return f"#{it['serial']} {carried_text(it)}"


def sent_text(sent, group):
    if not sent:
        return ""
    if len(sent) == 1:
        return f"  -> {envelope_text(sent[0])} to {sent[0]['to']}"
    first, last = sent[0]["serial"], sent[-1]["serial"]
    assert [it["serial"] for it in sent] == list(range(first, last + 1)), "serials that don't rise by one"
    assert [it["to"] for it in sent] == list(range(1, group + 1)), "not one envelope for each member"
    assert len({carried_text(it) for it in sent}) == 1, "envelopes that carry different things"
    return f"  -> #{first}..{last} {carried_text(sent[0])} to all"


def acks_text(it):
    return f" acks {len(it['acked'])} of {len(it['replied'])}"


def detail_text(it):
    step = it["step"]
    if step == "submit":
        return f"{command_text(it['command'])} as {it['message']}"
    if "envelope" in it:
        return envelope_text(it["envelope"])
    if step == "begin":
        return f"instance {it['instance']} proposes {value_text(it['value'])}"
    if step == "enter":
        return f"round {it['instance']}/{it['round']}, coordinator {it['coordinator']}"
    if step == "choose":
        return f"estimate of {it['from']}: {estimate_text(it['estimate'])}"
    if step == "adopt":
        return estimate_text(it["estimate"])
    if step == "suspect":
        return f"member {it['coordinator']}; keeps {estimate_text(it['estimate'])}"
    if step == "conclude":
        decided = f"decides {value_text(it['decided'])}" if "decided" in it else "no decision"
        return f"{acks_text(it)[1:]}: {decided}"
    if step in ("deliver", "follow"):
        return f"instance {it['instance']}: {value_text(it['delivered'])}"
    return ""


def head_text(it):
    return f"{it['number']:4}{it['member']:4}  "


def place_text(it):
    if "round" not in it:
        return " idle"
    coordinator = f", coordinator {it['coordinator']}" if "coordinator" in it else ""
    return f" round {it['round']} {it['phase']}{coordinator}"


def envelope_facts(it):
    envelope = it["envelope"]
    if "kind" not in envelope:
        return f"#{envelope['serial']} was not sent: {it['envelopes']} envelopes were"
    place = {"NotSent": f" went to member {envelope['to']}", "StillWaiting": " is in its line"}
    text = envelope_text(envelope) + place.get(it["refusal"], f" to {envelope['to']}")
    if "left" in it:
        text += f", left in step {it['left']['number']}: {entry_text(it['left']['entry'])}"
    return text


def member_facts(it):
    text = f"instance {it['instance']}{place_text(it)}"
    if "round" in it:
        text += f", estimate {estimate_text(it['estimate'])}"
        text += "".join(f", heard {heard['member']} {estimate_text(heard)}" for heard in it["heard"])
        text += "," + acks_text(it)
    return text


def entry_of(it):
    arguments = [it[key] for key in ("command", "from") if key in it]
    if "envelope" in it:
        arguments.append(it["envelope"]["serial"])
    return [it["step"], it["member"], *arguments]


def step_text(it, group):
    if "refusal" in it:
        facts = envelope_facts(it) if "envelope" in it else member_facts(it)
        return f"{head_text(it)}{act_text(entry_of(it))}  REFUSED {it['refusal']}: {facts}"
    detail = detail_text(it)
    return head_text(it) + (f"{it['step']:9}{detail}" if detail else it["step"]) + sent_text(it["sent"], group)


def set_text(members):
    return " ".join(map(str, members)) or "-"


def next_text(entries):
    return " or ".join(map(entry_text, entries)) or "-"


def member_text(it):
    assert it["open"] == ("round" in it), "a round where no instance is open, or none where one is"
    yield f"member {it['member']} {'up' if it['up'] else 'crashed'} instance {it['instance']}{place_text(it)}"
    if it["open"]:
        yield f"  estimate {estimate_text(it['estimate'])}"
        for heard in it["heard"]:
            yield f"  heard    {heard['member']} {estimate_text(heard)}"
        yield f"  acked    {set_text(it['acked'])}"
        yield f"  replied  {set_text(it['replied'])}"
    for envelope in it["waiting"]:
        yield f"  waiting  {envelope_text(envelope)}, sent by {envelope['sender']}"
    for entry in it["enabled"]:
        yield f"  enabled  {entry_text(entry)}"
    for refused in it["refused"]:
        yield f"  refused  {entry_text(refused['entry'])} {refused['refusal']}"
    yield f"  next     {next_text(it['next'])}"


def state_text(lines):
    group, *members = lines
    yield f"group {group['group']} majority {group['majority']} cells {group['cells']} batch {group['batch']}"
    yield f"steps {group['steps']} sent {group['sent']} posted {group['posted']}"
    for member in members:
        yield from member_text(member)


# ---- what is compared

def output(tool, *words):
    return subprocess.run([tool, *words], capture_output=True, text=True, timeout=60).stdout.splitlines()


def objects(schema, lines):
    found = [json.loads(line) for line in lines]
    for it in found:
        schema.validate(it)
    return found


def first_difference(told, wanted):
    for number, (one, other) in enumerate(zip(told, wanted), 1):
        assert one == other, f"line {number} tells '{one}', not '{other}'"
    assert len(told) == len(wanted), f"{len(told)} lines, not {len(wanted)}"


def check_steps(tool, schema, record, group):
    lines = objects(schema, output(tool, "steps", "--json", record))
    first_difference([step_text(it, group) for it in lines], output(tool, "steps", record))
    return lines


def check_state(tool, schema, record, group, after):
    words = record, "--after", str(after)
    lines = objects(schema, output(tool, "state", "--json", *words))
    first_difference(list(state_text(lines)), output(tool, "state", *words))
    report = json.loads("".join(output(tool, "report", record)) or "{}")
    if report.get("steps") == after:
        for it, wanted in zip(lines[1:], report["members"]):
            assert wanted.items() <= it.items(), f"member {it['member']} is another than in the report"
    assert len(lines) == group + 1, f"{len(lines)} lines of the state"


def check(tool, schemas, record):
    with open(record) as file:
        run = json.load(file)
    lines = check_steps(tool, schemas["steps"], record, run["n"])
    refused = "refusal" in lines[-1]
    assert refused or len(lines) == len(run["steps"]), f"{len(lines)} lines of {len(run['steps'])} steps"
    last = len(lines) - refused
    for after in sorted({0, last // 3, last // 2, last - 1, last}):
        check_state(tool, schemas["state"], record, run["n"], after)


def main():
    tool, *records = sys.argv[1:]
    assert records, "no records"
    schemas = {}
    for name in ("steps", "state"):
        schema = json.loads((DOCS / f"{name}.schema.json").read_text())
        jsonschema.Draft202012Validator.check_schema(schema)
        schemas[name] = jsonschema.Draft202012Validator(schema)
    status = 0
    for record in records:
        try:
            check(tool, schemas, record)
        except (AssertionError, KeyError, IndexError, ValueError, jsonschema.ValidationError) as error:
            print(f"{record}: {getattr(error, 'message', None) or error!r}")
            status = 1
    return status


sys.exit(main())
