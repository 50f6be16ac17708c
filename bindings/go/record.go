package malletochre

// #include "ct.h"
import "C"

import (
	"fmt"
	"strings"
)

// Record gives the record, as `ct replay` and `ct_tool` read it: JSON, without a line feed.
func (w *World) Record() (string, error) {
	steps, err := w.Steps()
	if err != nil {
		return "", err
	}
	texts := make([]string, len(steps))
	for i, step := range steps {
		texts[i] = step.String()
	}
	return fmt.Sprintf(`{"batch":%d,"cells":%d,"n":%d,"steps":[%s],"version":3}`, w.own.bound, w.own.cells, w.own.members,
		strings.Join(texts, ",")), nil
}

// OpenRecord makes a world with the setup and the steps of a record, as `ct replay` and `ct_tool` read it. NoRecord, OutOfMemory, or why a
// step is refused; of a step the error tells its place, counted from 1, and wraps the Refusal.
func OpenRecord(record []byte) (*World, error) {
	world := newWorld(0, 0, 0)
	if world == nil {
		return nil, OutOfMemory
	}
	own := world.own
	told := C.ct_open_record(own.at, start(record), C.size_t(len(record)))
	if err := refused(told.refusal); err != nil {
		world.Close()
		if told.at > 0 {
			err = fmt.Errorf("step %d: %w", told.at, err)
		}
		return nil, err
	}
	own.members, own.cells, own.bound = uint8(told.members), uint16(told.cells), uint32(told.bound)
	return world, nil
}
