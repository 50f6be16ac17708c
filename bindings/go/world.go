package malletochre

// #include <stdlib.h>
// #include "ct.h"
import "C"

import (
	"runtime"
	"unsafe"
)

// World is a group of members, what is on its way between them, and the record of the steps so far. What it is asked changes nothing, and
// is answered NotOpen where it is closed, and NoSuchMember of a member that is none of the group's.
type World struct{ own *ownWorld }

// What the copies of a World share: the struct that the library is given, which stays at one address outside of Go's memory; nil once it
// is closed.
type ownWorld struct {
	at      *C.ct_world
	members uint8
	cells   uint16
	bound   uint32
}

// Open makes a world without steps of this many members, at most MaxMembers, with cells for posted batches, at most MaxCells, where a
// member proposes at most bound messages for an instance, 1 to MaxBound. BadSetup or OutOfMemory.
func Open(members uint8, cells uint16, bound uint32) (*World, error) {
	world := newWorld(members, cells, bound)
	if world == nil {
		return nil, OutOfMemory
	}
	if err := refused(C.ct_world_open(world.own.at, C.uint8_t(members), C.uint16_t(cells), C.uint32_t(bound))); err != nil {
		world.Close()
		return nil, err
	}
	return world, nil
}

// newWorld is a world that is not open yet; nil where memory is refused.
func newWorld(members uint8, cells uint16, bound uint32) *World {
	at := (*C.ct_world)(C.calloc(1, C.sizeof_ct_world))
	if at == nil {
		return nil
	}
	own := &ownWorld{at, members, cells, bound}
	runtime.SetFinalizer(own, (*ownWorld).close)
	return &World{own}
}

// Close lets go what the world keeps. It may be called again.
func (w *World) Close() {
	if w != nil && w.own != nil {
		w.own.close()
	}
}

func (o *ownWorld) close() {
	if o.at != nil {
		C.ct_world_close(o.at)
		C.free(unsafe.Pointer(o.at))
		o.at = nil
	}
}

// open gives what the library is called with. The caller keeps w.own alive until that call is over.
func (w *World) open() (*C.ct_world, error) {
	if w == nil || w.own == nil || w.own.at == nil {
		return nil, NotOpen
	}
	return w.own.at, nil
}

// of gives the same, where this is a member.
func (w *World) of(member uint8) (*C.ct_world, error) {
	at, err := w.open()
	if err == nil && (member < 1 || member > w.own.members) {
		return nil, NoSuchMember
	}
	return at, err
}

// Copy makes a world of its own with the same setup and record. It takes as long as replaying the record.
func (w *World) Copy() (*World, error) {
	at, err := w.open()
	if err != nil {
		return nil, err
	}
	other := newWorld(w.own.members, w.own.cells, w.own.bound)
	if other == nil {
		return nil, OutOfMemory
	}
	err = refused(C.ct_copy(at, other.own.at))
	runtime.KeepAlive(w.own)
	if err != nil {
		other.Close()
		return nil, err
	}
	return other, nil
}

// Apply does the step, and gives the serial of the first envelope that it sent, and how many it sent; or refuses it, and nothing has
// changed.
func (w *World) Apply(step Step) (first, count uint32, err error) {
	at, err := w.open()
	if err != nil {
		return 0, 0, err
	}
	kind, member, a, b, c := step.numbers()
	effect := C.ct_apply(at, kind, member, a, b, c)
	runtime.KeepAlive(w.own)
	return uint32(effect.first), uint32(effect.count), refused(effect.refusal)
}

// Enabled says why the step would be refused now, want of memory apart; nil where it is allowed.
func (w *World) Enabled(step Step) error {
	at, err := w.open()
	if err != nil {
		return err
	}
	kind, member, a, b, c := step.numbers()
	err = refused(C.ct_enabled(at, kind, member, a, b, c))
	runtime.KeepAlive(w.own)
	return err
}

// HasCrashed says whether the member has crashed.
func (w *World) HasCrashed(member uint8) (bool, error) {
	if _, err := w.of(member); err != nil {
		return false, err
	}
	return w.Enabled(Step{Kind: Crash, Member: member}) == Crashed, nil
}

// Next is what a driver does next at the member: the first step that is allowed of Deliver, Follow, Begin, Choose (of the least member
// that was heard with the largest ts), Adopt, Conclude, Enter and Suspect. Its kind is 0 where there is none.
func (w *World) Next(member uint8) (Step, error) {
	at, err := w.of(member)
	if err != nil {
		return Step{}, err
	}
	step := stepOf(C.ct_next(at, C.uint8_t(member)))
	runtime.KeepAlive(w.own)
	return step, nil
}

// Envelope gives the envelope of a serial, wherever it is now. Its kind is 0 where that was not sent.
func (w *World) Envelope(serial uint32) (Envelope, error) {
	at, err := w.open()
	if err != nil {
		return Envelope{}, err
	}
	envelope := envelopeOf(serial, C.ct_envelope(at, C.uint32_t(serial)))
	runtime.KeepAlive(w.own)
	return envelope, nil
}
