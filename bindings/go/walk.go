package malletochre

// #include <stdlib.h>
// #include "ct.h"
import "C"

import (
	"runtime"
	"unsafe"
)

// WalkOptions are the options of a walk, under their names in `ct_tool walk --help`, which says what each does, and their ranges: Members 1
// to MaxMembers; Turns, for each member, and Every up to 100,000; Rate, Scatter and Lasting up to 256; Cells up to MaxCells; Submit,
// Postpone, Lose, Repeat and Cut up to 1,000; Crash a member, or 0; Crashes fewer than half of the members; Batch 1 to MaxBound.
type WalkOptions struct {
	Members                uint8
	Turns, Seed            uint32
	Rate, Cells, Submit    uint16
	Crash                  uint8
	Postpone, Lose, Repeat uint16
	Batch, Every           uint32
	Scatter, Lasting       uint16
	Crashes                uint8
	Cut                    uint16
}

// UsualWalk gives the options of `ct_tool walk --members .. --seed ..`: all others are as where they aren't given.
func UsualWalk(members uint8, seed uint32) WalkOptions {
	it := C.ct_walk_usual(C.uint8_t(members), C.uint32_t(seed))
	return WalkOptions{Members: members, Turns: uint32(it.turns), Seed: seed, Rate: uint16(it.rate), Cells: uint16(it.cells),
		Submit: uint16(it.submit), Batch: uint32(it.batch)}
}

// Walk is the random run that `ct_tool walk` makes of options, asked turn by turn what it tries next. The caller applies the step in a
// world of its own, or doesn't; the turns behind go by the world as it stands then. Where each is applied in a world that was opened with
// Members, Cells and Batch, the record is the one that `ct_tool walk` prints. Copies of a Walk are the same walk.
type Walk struct{ own *ownWalk }

type ownWalk struct{ at *C.ct_walk }

// TurnKind is what a turn of a walk comes to.
type TurnKind uint8

// The kinds of turns: its step is tried, and where the rules refuse it the next turn is asked for all the same; nothing is tried; all turns
// were made.
const (
	TurnStep TurnKind = C.CT_TURN_STEP
	TurnRest TurnKind = C.CT_TURN_REST
	TurnOver TurnKind = C.CT_TURN_OVER
)

// Turn is a turn of a walk. Step is that of TurnStep, else zero.
type Turn struct {
	Kind TurnKind
	Step Step
}

// OpenWalk makes a walk before its first turn. BadOptions or OutOfMemory.
func OpenWalk(o WalkOptions) (*Walk, error) {
	at := (*C.ct_walk)(C.calloc(1, C.sizeof_ct_walk))
	if at == nil {
		return nil, OutOfMemory
	}
	own := &ownWalk{at}
	runtime.SetFinalizer(own, (*ownWalk).close)
	options := C.ct_walk_options{turns: C.uint32_t(o.Turns), seed: C.uint32_t(o.Seed), batch: C.uint32_t(o.Batch),
		every: C.uint32_t(o.Every), rate: C.uint16_t(o.Rate), cells: C.uint16_t(o.Cells), submit: C.uint16_t(o.Submit),
		postpone: C.uint16_t(o.Postpone), lose: C.uint16_t(o.Lose), repeat: C.uint16_t(o.Repeat), scatter: C.uint16_t(o.Scatter),
		lasting: C.uint16_t(o.Lasting), cut: C.uint16_t(o.Cut), members: C.uint8_t(o.Members), crash: C.uint8_t(o.Crash),
		crashes: C.uint8_t(o.Crashes)}
	if err := refused(C.ct_walk_open(at, &options)); err != nil {
		own.close()
		return nil, err
	}
	return &Walk{own}, nil
}

// Close lets go what the walk keeps. It may be called again.
func (w *Walk) Close() {
	if w != nil && w.own != nil {
		w.own.close()
	}
}

func (o *ownWalk) close() {
	if o.at != nil {
		C.ct_walk_close(o.at)
		C.free(unsafe.Pointer(o.at))
		o.at = nil
	}
}

// Turn gives the next turn, in this world as it stands; NotOpen where one of both is closed.
func (w *Walk) Turn(world *World) (Turn, error) {
	at, err := world.open()
	if err == nil && (w == nil || w.own == nil || w.own.at == nil) {
		err = NotOpen
	}
	if err != nil {
		return Turn{}, err
	}
	turn := C.ct_walk_turn(w.own.at, at)
	runtime.KeepAlive(world.own)
	runtime.KeepAlive(w.own)
	return Turn{TurnKind(turn.kind), stepOf(turn.step)}, nil
}
