package malletochre

// #include "ct.h"
import "C"

import "runtime"

// list gives the elements that the call writes, each as `of` makes it; nil where there is no such list.
func list[T, U any](call func(room *T, length C.size_t) C.size_t, of func(T) U) []U {
	room := make([]T, 8)
	count := uint64(call(&room[0], C.size_t(len(room))))
	if count == uint64(C.SIZE_MAX) {
		return nil
	}
	if count > uint64(len(room)) {
		room = make([]T, count)
		call(&room[0], C.size_t(len(room)))
	}
	made := make([]U, count)
	for i := range made {
		made[i] = of(room[i])
	}
	return made
}

// ofMember gives the elements that the call writes of a member of the group.
func ofMember[T, U any](w *World, member uint8, of func(T) U,
	call func(at *C.ct_world, member C.uint8_t, room *T, length C.size_t) C.size_t) ([]U, error) {
	at, err := w.of(member)
	if err != nil {
		return nil, err
	}
	made := list(func(room *T, length C.size_t) C.size_t { return call(at, C.uint8_t(member), room, length) }, of)
	runtime.KeepAlive(w.own)
	return made, nil
}

// Steps gives the steps so far.
func (w *World) Steps() ([]Step, error) {
	at, err := w.open()
	if err != nil {
		return nil, err
	}
	steps := list(func(room *C.ct_step, length C.size_t) C.size_t { return C.ct_steps(at, 0, room, length) }, stepOf)
	runtime.KeepAlive(w.own)
	return steps, nil
}

// Value gives the value that the envelope of a serial carries, in the order of messages: of an estimate, a proposal or a decision. It is
// nil where that serial was not sent, or its envelope carries none.
func (w *World) Value(serial uint32) ([]Message, error) {
	at, err := w.open()
	if err != nil {
		return nil, err
	}
	value := list(func(room *C.ct_message, length C.size_t) C.size_t {
		return C.ct_value(at, C.uint32_t(serial), room, length)
	}, messageOf)
	runtime.KeepAlive(w.own)
	return value, nil
}

// Waiting gives the serials of the envelopes that wait at the member, in the order of its line.
func (w *World) Waiting(member uint8) ([]uint32, error) {
	return ofMember(w, member, func(it C.uint32_t) uint32 { return uint32(it) },
		func(at *C.ct_world, member C.uint8_t, room *C.uint32_t, length C.size_t) C.size_t {
			return C.ct_waiting(at, member, room, length)
		})
}

// Received gives the messages that the member received, in order of first receipt.
func (w *World) Received(member uint8) ([]Message, error) {
	return ofMember(w, member, messageOf, func(at *C.ct_world, member C.uint8_t, room *C.ct_message, length C.size_t) C.size_t {
		return C.ct_received(at, member, room, length)
	})
}

// Decided gives the decision that the member got for an instance, in the order of messages; nil where it got none.
func (w *World) Decided(member uint8, instance uint32) ([]Message, error) {
	return ofMember(w, member, messageOf, func(at *C.ct_world, member C.uint8_t, room *C.ct_message, length C.size_t) C.size_t {
		return C.ct_decided(at, member, C.uint32_t(instance), room, length)
	})
}

// Delivered gives the messages that the member delivered, in order.
func (w *World) Delivered(member uint8) ([]Message, error) {
	return ofMember(w, member, messageOf, func(at *C.ct_world, member C.uint8_t, room *C.ct_message, length C.size_t) C.size_t {
		return C.ct_delivered(at, member, room, length)
	})
}

// Table gives the values of the member's registers, after the commands of what it delivered.
func (w *World) Table(member uint8) (table [Registers]uint64, err error) {
	at, err := w.of(member)
	if err != nil {
		return table, err
	}
	C.ct_table(at, C.uint8_t(member), (*C.uint64_t)(&table[0]), Registers)
	runtime.KeepAlive(w.own)
	return table, nil
}
