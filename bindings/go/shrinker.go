package malletochre

// #include <stdlib.h>
// #include "ct.h"
import "C"

import (
	"runtime"
	"unsafe"
)

// Shrinker makes a run that passes a test of the caller's smaller trial by trial, as `ct_tool shrink` does for a goal. Each trial is the run
// without some steps, in a fresh world of the caller's with the same members, cells and bound; Shrunk makes them all, where the test is one
// of the world. Copies of a Shrinker are the same shrinker.
type Shrinker struct{ own *ownShrinker }

type ownShrinker struct{ at *C.ct_shrink }

// OpenShrinker makes a shrinker before the first of so many trials at most of this world's run. Where the test names members, no trial
// gives them other numbers. NotOpen or OutOfMemory. It takes as long as replaying the record.
func OpenShrinker(world *World, namesMembers bool, trials uint32) (*Shrinker, error) {
	of, err := world.open()
	if err != nil {
		return nil, err
	}
	at := (*C.ct_shrink)(C.calloc(1, C.sizeof_ct_shrink))
	if at == nil {
		return nil, OutOfMemory
	}
	own := &ownShrinker{at}
	runtime.SetFinalizer(own, (*ownShrinker).close)
	err = refused(C.ct_shrink_open(at, of, C.bool(namesMembers), C.uint32_t(trials)))
	runtime.KeepAlive(world.own)
	if err != nil {
		own.close()
		return nil, err
	}
	return &Shrinker{own}, nil
}

// Close lets go what the shrinker keeps. It may be called again.
func (s *Shrinker) Close() {
	if s != nil && s.own != nil {
		s.own.close()
	}
}

func (o *ownShrinker) close() {
	if o.at != nil {
		C.ct_shrink_close(o.at)
		C.free(unsafe.Pointer(o.at))
		o.at = nil
	}
}

// open gives what the library is called with. The caller keeps s.own alive until that call is over.
func (s *Shrinker) open() (*C.ct_shrink, error) {
	if s == nil || s.own == nil || s.own.at == nil {
		return nil, NotOpen
	}
	return s.own.at, nil
}

// Next asks for the next trial: NoTrial where no step can be left out, or so many trials were made; NotOpen or OutOfMemory. Until the trial
// was told it is asked for again, from its first step.
func (s *Shrinker) Next() error {
	at, err := s.open()
	if err != nil {
		return err
	}
	err = refused(C.ct_shrink_next(at))
	runtime.KeepAlive(s.own)
	return err
}

// Turn gives the next step of the trial, in this world as it stands, where it is allowed; its Kind is 0 behind the last. In place of one
// that the rules refuse there, its member does what else it may, or it is left out. Where no trial is asked for, the steps are those of the
// smallest run so far. NotOpen where one of both is closed.
func (s *Shrinker) Turn(world *World) (Step, error) {
	at, err := s.open()
	if err != nil {
		return Step{}, err
	}
	in, err := world.open()
	if err != nil {
		return Step{}, err
	}
	turn := C.ct_shrink_turn(at, in)
	runtime.KeepAlive(world.own)
	runtime.KeepAlive(s.own)
	return stepOf(turn.step), nil
}

// Told tells what the trial came to: whether the test is passed in this world. Where it is, in fewer steps than the smallest run so far
// has, the world's run is that from here on. NoTrial where none is asked for, NotOpen or OutOfMemory.
func (s *Shrinker) Told(world *World, passed bool) error {
	at, err := s.open()
	if err != nil {
		return err
	}
	in, err := world.open()
	if err != nil {
		return err
	}
	err = refused(C.ct_shrink_told(at, in, C.bool(passed)))
	runtime.KeepAlive(world.own)
	runtime.KeepAlive(s.own)
	return err
}

// IsLeast says whether no step of the smallest run can be left out, as far as the trials were told; not so where it is closed.
func (s *Shrinker) IsLeast() bool {
	at, err := s.open()
	isLeast := err == nil && bool(C.ct_shrink_is_least(at))
	runtime.KeepAlive(s)
	return isLeast
}

// Shrunk makes the smallest run that so many trials at most leave of this world's, which passes: each trial is asked before each of its
// steps, and behind the last, whether it passes. Where the test names members, no trial gives them other numbers. NotOpen or OutOfMemory.
func Shrunk(world *World, namesMembers bool, trials uint32, passes func(*World) bool) (*World, error) {
	s, err := OpenShrinker(world, namesMembers, trials)
	if err != nil {
		return nil, err
	}
	defer s.Close()
	for err = s.Next(); err == nil; err = s.Next() {
		if err = s.try(world.own, passes); err != nil {
			return nil, err
		}
	}
	if err != NoTrial {
		return nil, err
	}
	least, _, err := s.tried(world.own, func(*World) bool { return false })
	return least, err
}

// try makes the trial, and tells what it came to.
func (s *Shrinker) try(like *ownWorld, passes func(*World) bool) error {
	trial, passed, err := s.tried(like, passes)
	if err != nil {
		return err
	}
	defer trial.Close()
	return s.Told(trial, passed)
}

// tried gives a fresh world in which the steps were applied until it passed, and whether it did.
func (s *Shrinker) tried(like *ownWorld, passes func(*World) bool) (*World, bool, error) {
	trial, err := Open(like.members, like.cells, like.bound)
	if err != nil {
		return nil, false, err
	}
	for !passes(trial) {
		step, err := s.Turn(trial)
		if err == nil && step.Kind == 0 {
			return trial, false, nil
		}
		if err == nil {
			_, _, err = trial.Apply(step)
		}
		if err != nil {
			trial.Close()
			return nil, false, err
		}
	}
	return trial, true, nil
}
