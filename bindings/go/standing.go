package malletochre

// #include "ct.h"
import "C"

import (
	"fmt"
	"runtime"
)

// Phase is the phase of a round; 0: none.
type Phase uint8

// The phases of a round: none is running; the coordinator gathers estimates; its proposal is awaited; it counts replies.
const (
	Rest Phase = iota + 1
	Gather
	Wait
	Tally
)

var phaseNames = [...]string{"none", Rest: "Rest", Gather: "Gather", Wait: "Wait", Tally: "Tally"}

// String gives its name, as Gather.
func (p Phase) String() string {
	if int(p) < len(phaseNames) {
		return phaseNames[p]
	}
	return fmt.Sprintf("phase %d", uint8(p))
}

// Standing is where a member stands: the last instance that it began, 0 before the first, and, while that is open, its round, 0 before the
// first, with its phase; Ts, the round in which it took its estimate over, 0 where the estimate is its own; the members whose estimates it
// got for the round, each with the ts, those whose acks it got, and those whose acks or nacks it got, rising.
type Standing struct {
	Instance, Round uint32
	Phase           Phase
	Ts              uint32
	Heard           map[uint8]uint32
	Acked, Replied  []uint8
	HasCrashed      bool
}

// Standing tells where the member stands.
func (w *World) Standing(member uint8) (Standing, error) {
	at, err := w.of(member)
	if err != nil {
		return Standing{}, err
	}
	it := C.ct_standing_of(at, C.uint8_t(member))
	runtime.KeepAlive(w.own)
	heard := map[uint8]uint32{}
	for _, from := range membersOf(it.heard) {
		heard[from] = uint32(it.heard_ts[from-1])
	}
	return Standing{uint32(it.instance), uint32(it.round), Phase(it.phase), uint32(it.ts), heard, membersOf(it.acked),
		membersOf(it.replied), bool(it.has_crashed)}, nil
}

// membersOf gives the members of a set, of which member 1 has the lowest bit.
func membersOf(bits C.uint16_t) []uint8 {
	members := []uint8{}
	for member := uint8(1); member <= MaxMembers; member++ {
		if bits>>(member-1)&1 == 1 {
			members = append(members, member)
		}
	}
	return members
}
