// Asked prints what worlds and sessions answer, as the same program in other languages does: bindings/python/tests/asked.py says how it is
// called, bindings/tests/asking.py, walking.py and shrinking.py what it reads. `asked lines FILE` tells a session the lines of a file, and
// prints the answers.
package main

import (
	"bufio"
	"bytes"
	"errors"
	"fmt"
	"os"
	"runtime"
	"strconv"
	"strings"

	it "malletochre"
)

const lookedBack = 150

var kinds = [...]string{"-", "data", "est", "prop", "ack", "nack", "dec"}

var out = bufio.NewWriter(os.Stdout)

// must gives what has no error.
func must[T any](value T, err error) T {
	if err != nil {
		panic(err)
	}
	return value
}

// world is what is asked; last the last serial that it sent.
var (
	world   *it.World
	members uint8
	last    uint32
)

func list(messages []it.Message) string {
	if messages == nil {
		return " -"
	}
	var text strings.Builder
	for _, message := range messages {
		text.WriteString(" " + named(message))
	}
	return text.String()
}

func named(message it.Message) string {
	names := [...]string{it.Set: "set", it.Add: "add", it.Copy: "copy"}
	command := message.Command
	return fmt.Sprintf("%v=%s,%d,%d", message, names[command.Kind], command.Register, command.Value)
}

func name(err error) string {
	if err == nil {
		return "ok"
	}
	return err.Error()
}

func stands(standing it.Standing) string {
	phase, crashed := "-", ""
	if standing.Phase != 0 {
		phase = standing.Phase.String()
	}
	if standing.HasCrashed {
		crashed = " crashed"
	}
	var heard, acked, replied strings.Builder
	for from := uint8(1); from <= it.MaxMembers; from++ {
		if ts, isThere := standing.Heard[from]; isThere {
			fmt.Fprintf(&heard, " %d:%d", from, ts)
		}
	}
	for _, from := range standing.Acked {
		fmt.Fprintf(&acked, " %d", from)
	}
	for _, from := range standing.Replied {
		fmt.Fprintf(&replied, " %d", from)
	}
	return fmt.Sprintf("stands %d %d %s %d%s heard%s acked%s replied%s", standing.Instance, standing.Round, phase, standing.Ts, crashed,
		&heard, &acked, &replied)
}

func askMember(member uint8) {
	state := map[bool]string{false: "up", true: "crashed"}[must(world.HasCrashed(member))]
	next := "-"
	if step := must(world.Next(member)); step.Kind != 0 {
		next = step.String()
	}
	fmt.Fprintf(out, "member %d %s\n%s\nnext %s\nmay", member, state, stands(must(world.Standing(member))), next)
	for kind := it.Begin; kind <= it.Follow; kind++ {
		step := it.Step{Kind: kind, Member: member}
		if kind == it.Choose {
			step.From = 1
		}
		fmt.Fprintf(out, " %s", name(world.Enabled(step)))
	}
	fmt.Fprint(out, "\nwaiting")
	for _, serial := range must(world.Waiting(member)) {
		fmt.Fprintf(out, " %d", serial)
	}
	fmt.Fprintf(out, "\nreceived%s\ndelivered%s\ntable", list(must(world.Received(member))), list(must(world.Delivered(member))))
	for _, value := range must(world.Table(member)) {
		fmt.Fprintf(out, " %d", value)
	}
	fmt.Fprintln(out)
	for _, instance := range []uint32{0, 1, 2, 3, 4, 5, 256, 257} {
		fmt.Fprintf(out, "decided %d%s\n", instance, list(must(world.Decided(member, instance))))
	}
}

func askEnvelope(serial uint32) {
	envelope := must(world.Envelope(serial))
	fmt.Fprintf(out, "#%d %s", serial, kinds[envelope.Kind])
	switch envelope.Kind {
	case 0:
	case it.Data:
		fmt.Fprintf(out, " to %d %s", envelope.To, named(envelope.Message))
	default:
		fmt.Fprintf(out, " to %d %d/%d", envelope.To, envelope.Instance, envelope.Round)
	}
	switch envelope.Kind {
	case it.Est:
		fmt.Fprintf(out, " from %d ts %d", envelope.From, envelope.Ts)
	case it.Ack, it.Nack:
		fmt.Fprintf(out, " from %d", envelope.From)
	}
	fmt.Fprintf(out, " value%s\n", list(must(world.Value(serial))))
}

func ask() {
	for member := uint8(1); member <= members; member++ {
		askMember(member)
	}
	first := uint32(0)
	if last > lookedBack {
		first = last - lookedBack
	}
	for serial := first; serial <= last+1; serial++ {
		askEnvelope(serial)
	}
}

func apply(step it.Step) (first, count uint32, err error) {
	first, count, err = world.Apply(step)
	if count > 0 {
		last = first + count - 1
	}
	return
}

// step is the step of these numbers: kind, member, a, b, c of ct.h.
func step(n []uint64) it.Step {
	made := it.Step{Kind: it.Kind(n[0]), Member: uint8(n[1])}
	switch made.Kind {
	case it.Submit:
		made.Command = it.Command{Kind: it.CommandKind(n[2]), Register: uint8(n[3]), Value: n[4]}
	case it.Choose:
		made.From = uint8(n[2])
	default:
		made.Serial = uint32(n[2])
	}
	return made
}

func steps(n []uint64) {
	made := step(n[1:])
	for i := uint64(1); i < n[0]; i++ {
		_, _, _ = apply(made)
	}
	enabled := world.Enabled(made)
	first, count, err := apply(made)
	fmt.Fprintf(out, "came to %s %s %d %d\n", name(enabled), name(err), first, count)
}

func turns(times uint64, member uint8, receivesFirst bool) {
	done := 0
	for i := uint64(0); i < times; i++ {
		next, serials := must(world.Next(member)), must(world.Waiting(member))
		if receivesFirst && next.Kind == it.Suspect {
			next = it.Step{}
		}
		if len(serials) > 0 && (receivesFirst || next.Kind == 0) {
			next = it.Step{Kind: it.Receive, Member: member, Serial: serials[0]}
		}
		if next.Kind != 0 {
			if _, _, err := apply(next); err == nil {
				done++
			}
		}
	}
	fmt.Fprintln(out, done)
}

// record prints the record of the world, and of a copy's record opened again, which is asked from here on.
func record() {
	fmt.Fprintln(out, must(world.Record()))
	other := must(world.Copy())
	world.Close()
	world = must(it.OpenRecord([]byte(must(other.Record()))))
	other.Close()
	fmt.Fprintln(out, must(world.Record()))
}

func worlds(text string) {
	for _, line := range strings.Split(strings.TrimSuffix(text, "\n"), "\n") {
		words := strings.Split(line, " ")
		n := make([]uint64, len(words)-1)
		for i, word := range words[1:] {
			n[i] = must(strconv.ParseUint(word, 10, 64))
		}
		switch words[0] {
		case "world":
			world.Close()
			world, members, last = must(it.Open(uint8(n[0]), uint16(n[1]), uint32(n[2]))), uint8(n[0]), 0
		case "step":
			steps(n)
		case "ask":
			ask()
		case "record":
			record()
		default:
			turns(n[0], uint8(n[1]), words[0] == "take")
		}
	}
}

// walks prints the records of walks with these options, which are in the order of ct.h.
func walks(text string) {
	for _, line := range strings.Split(strings.TrimSuffix(text, "\n"), "\n") {
		n := [16]uint32{}
		for i, word := range strings.Split(line, " ") {
			n[i] = uint32(must(strconv.ParseUint(word, 10, 32)))
		}
		walk := must(it.OpenWalk(it.WalkOptions{Turns: n[0], Seed: n[1], Batch: n[2], Every: n[3], Rate: uint16(n[4]), Cells: uint16(n[5]),
			Submit: uint16(n[6]), Postpone: uint16(n[7]), Lose: uint16(n[8]), Repeat: uint16(n[9]), Scatter: uint16(n[10]),
			Lasting: uint16(n[11]), Cut: uint16(n[12]), Members: uint8(n[13]), Crash: uint8(n[14]), Crashes: uint8(n[15])}))
		made := must(it.Open(uint8(n[13]), uint16(n[5]), n[2]))
		for turn := must(walk.Turn(made)); turn.Kind != it.TurnOver; turn = must(walk.Turn(made)) {
			if turn.Kind == it.TurnStep {
				_, _, _ = made.Apply(turn.Step)
			}
		}
		fmt.Fprintln(out, must(made.Record()))
		walk.Close()
		made.Close()
	}
}

// shows says whether the world shows the goal of this place in GOALS of bindings/tests/shrinking.py.
func shows(goal string, world *it.World) bool {
	if goal == "2" {
		return must(world.Decided(1, 1)) != nil
	}
	shown, member := 0, uint8(1)
	for standing, err := world.Standing(member); err == nil; standing, err = world.Standing(member) {
		switch {
		case goal == "0" && len(must(world.Delivered(member))) >= 2,
			goal == "1" && standing.Round >= 3,
			goal == "3" && standing.Phase == it.Wait && standing.Round >= 2:
			shown++
		}
		member++
	}
	return shown == int(member)-1 || shown > 0 && goal != "3"
}

// shrinks prints the records of smaller runs.
func shrinks(text string) {
	for _, line := range strings.Split(strings.TrimSuffix(text, "\n"), "\n") {
		words := strings.SplitN(line, " ", 4)
		run := must(it.OpenRecord([]byte(words[3])))
		trials := uint32(must(strconv.ParseUint(words[2], 10, 32)))
		least := must(it.Shrunk(run, words[1] == "1", trials, func(world *it.World) bool { return shows(words[0], world) }))
		fmt.Fprintln(out, must(least.Record()))
		run.Close()
		least.Close()
	}
}

func sessions(text string) {
	session := must(it.OpenSession())
	for _, line := range strings.Split(strings.TrimSuffix(text, "\n"), "\n") {
		word, rest, _ := strings.Cut(line, " ")
		rest = strings.ReplaceAll(rest, "\\n", "\n")
		var told string
		var err error
		switch word {
		case "tell":
			var first, count uint32
			first, count, err = session.Tell(rest)
			told = fmt.Sprintf("%d %d", first, count)
		case "ask":
			told, err = session.Ask(rest)
		case "record":
			told, err = session.Record()
		default:
			told, err = session.Diagram()
			told = strings.TrimSpace(told)
		}
		if err != nil {
			told = err.Error()
		}
		fmt.Fprintln(out, told)
	}
}

func lines(text []byte) {
	session := must(it.OpenSession())
	for _, line := range bytes.SplitAfter(text, []byte{'\n'}) {
		out.Write(must(session.TellBytes(line)))
	}
}

func many(count int) {
	for i := 0; i < count; i++ {
		world, session := must(it.Open(3, 64, it.MaxBound)), must(it.OpenSession())
		_, _, err := world.Apply(it.Step{Kind: it.Submit, Member: 1, Command: it.Command{Kind: it.Set, Value: 7}})
		must(0, err)
		_, err = session.TellBytes([]byte("members 3\n1 submit set 0 7\n"))
		must(0, err)
		if i%2 == 1 {
			world.Close()
			session.Close()
		}
		if i%500 == 0 {
			runtime.GC() // which sees too little of them to come by itself
		}
	}
}

func printNames() {
	for refusal := it.NoSuchMember; !strings.HasPrefix(refusal.Error(), "refusal"); refusal++ {
		fmt.Fprintf(out, "%d %v\n", uint32(refusal), refusal)
	}
}

func main() {
	defer out.Flush()
	switch word := os.Args[1]; word {
	case "names":
		printNames()
	case "many":
		many(must(strconv.Atoi(os.Args[2])))
	case "worlds":
		worlds(string(must(os.ReadFile(os.Args[2]))))
	case "walks":
		walks(string(must(os.ReadFile(os.Args[2]))))
	case "shrinks":
		shrinks(string(must(os.ReadFile(os.Args[2]))))
	case "sessions":
		sessions(string(must(os.ReadFile(os.Args[2]))))
	case "lines":
		lines(must(os.ReadFile(os.Args[2])))
	default:
		must(0, errors.New(word))
	}
}
