package malletochre

// #include "ct.h"
import "C"

import "fmt"

// CommandKind is the kind of a command.
type CommandKind uint8

// The kinds of commands: the register gets the value, grows by it, or is copied to the register Value.
const (
	Set CommandKind = iota + 1
	Add
	Copy
)

var commandNames = [...]string{Set: "set", Add: "add", Copy: "copy"}

// Command is what a message asks of a table of 16 registers.
type Command struct {
	Kind     CommandKind
	Register uint8
	Value    uint64
}

// String gives its text in a record, as ["set",0,7].
func (c Command) String() string {
	name := fmt.Sprintf("kind %d", c.Kind)
	if int(c.Kind) < len(commandNames) {
		name = commandNames[c.Kind]
	}
	return fmt.Sprintf("[%q,%d,%d]", name, c.Register, c.Value)
}

// Message is the Number-th command, counted from 1, that the member Origin broadcast.
type Message struct {
	Origin  uint8
	Number  uint32
	Command Command
}

// String gives the message's name, as 1.2.
func (m Message) String() string { return fmt.Sprintf("%d.%d", m.Origin, m.Number) }

func messageOf(it C.ct_message) Message {
	command := Command{CommandKind(it.command), uint8(it.reg), uint64(it.value)}
	return Message{uint8(it.origin), uint32(it.number), command}
}
