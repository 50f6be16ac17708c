// Package malletochre is a rehearsal of Chandra and Toueg's atomic broadcast, in process, to test implementations against: each step that
// an implementation takes is told to a World, which does it, or says why the algorithm refuses it.
//
// It calls libct.a of this folder, as a release has it, or of bindings/out, where bindings/build.sh makes it. Use one goroutine at a time
// on a World, a Walk, a Shrinker or a Session, and close each: one that isn't closed is given back when the garbage collector finds it,
// which doesn't see what the library keeps. Copies of a World are the same world, and so of the others; a call on one that is closed, or
// that was never opened, is refused as NotOpen.
package malletochre

/*
#cgo CFLAGS: -I${SRCDIR} -I${SRCDIR}/..
#cgo LDFLAGS: -L${SRCDIR} -L${SRCDIR}/../out -l:libct.a
*/
import "C"

// Limits of a setup. More messages than MaxBound can't be pending, so it bounds nothing.
const (
	MaxMembers = 16
	MaxCells   = 1024
	MaxBound   = 1048560
	Registers  = 16
)
