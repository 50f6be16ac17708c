package malletochre

// #include "ct.h"
import "C"

// Content is the kind of what an envelope carries; 0: no envelope.
type Content uint8

// The kinds of what envelopes carry: a message; an estimate, of which Ts is the round in which From took it over; the proposal of the
// round's coordinator; From took it over, or took the coordinator for crashed; the instance's decision.
const (
	Data Content = iota + 1
	Est
	Prop
	Ack
	Nack
	Dec
)

// Envelope is what was sent to the member To, and Serial its place among all that were sent, from 1. Fields that its kind lacks are zero.
type Envelope struct {
	Serial          uint32
	To              uint8
	Kind            Content
	Message         Message
	Instance, Round uint32
	From            uint8
	Ts              uint32
}

func envelopeOf(serial uint32, it C.ct_letter) Envelope {
	if it.kind == 0 {
		return Envelope{}
	}
	return Envelope{serial, uint8(it.to), Content(it.kind), messageOf(it.message), uint32(it.instance), uint32(it.round), uint8(it.from),
		uint32(it.ts)}
}
