package malletochre

// #include "ct.h"
import "C"

import "fmt"

// Kind is the kind of a step; 0: no step.
type Kind uint8

// The kinds of steps; docs/ALGORITHM.md says what each does.
const (
	Submit Kind = iota + 1
	Receive
	Begin
	Enter
	Choose
	Adopt
	Suspect
	Conclude
	Deliver
	Follow
	Crash
	Postpone
	Lose
	Repeat
)

var kindNames = [...]string{
	Submit: "submit", Receive: "receive", Begin: "begin", Enter: "enter", Choose: "choose", Adopt: "adopt", Suspect: "suspect",
	Conclude: "conclude", Deliver: "deliver", Follow: "follow", Crash: "crash", Postpone: "postpone", Lose: "lose", Repeat: "repeat",
}

// Step is a step of a member, counted from 1. Command is that of Submit; Serial that of Receive, Postpone, Lose and Repeat; From is the
// member of Choose. The others are zero.
type Step struct {
	Kind    Kind
	Member  uint8
	Command Command
	Serial  uint32
	From    uint8
}

// String gives its text in a record, as ["submit",1,["set",0,7]].
func (s Step) String() string {
	name := fmt.Sprintf("kind %d", s.Kind)
	if int(s.Kind) < len(kindNames) {
		name = kindNames[s.Kind]
	}
	switch s.Kind {
	case Submit:
		return fmt.Sprintf("[%q,%d,%v]", name, s.Member, s.Command)
	case Receive, Postpone, Lose, Repeat:
		return fmt.Sprintf("[%q,%d,%d]", name, s.Member, s.Serial)
	case Choose:
		return fmt.Sprintf("[%q,%d,%d]", name, s.Member, s.From)
	}
	return fmt.Sprintf("[%q,%d]", name, s.Member)
}

func (s Step) numbers() (kind, member C.uint8_t, a C.uint32_t, b C.uint8_t, c C.uint64_t) {
	kind, member, a = C.uint8_t(s.Kind), C.uint8_t(s.Member), C.uint32_t(s.Serial)
	switch s.Kind {
	case Submit:
		a, b, c = C.uint32_t(s.Command.Kind), C.uint8_t(s.Command.Register), C.uint64_t(s.Command.Value)
	case Choose:
		a = C.uint32_t(s.From)
	}
	return
}

func stepOf(it C.ct_step) Step {
	step := Step{Kind: Kind(it.kind), Member: uint8(it.member)}
	switch step.Kind {
	case Submit:
		step.Command = Command{CommandKind(it.a), uint8(it.b), uint64(it.c)}
	case Choose:
		step.From = uint8(it.a)
	default:
		step.Serial = uint32(it.a)
	}
	return step
}
