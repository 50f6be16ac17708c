package malletochre

// #include <stdlib.h>
// #include "ct.h"
import "C"

import (
	"bytes"
	"errors"
	"fmt"
	"runtime"
	"strings"
	"unsafe"
)

// Session is told the lines of a schedule (docs/SCHEDULES.md), and answers each, as `ct_tool interact` does. A call on one that is closed,
// as it is once memory was refused to Tell, Ask or TellBytes, is answered NotOpen.
type Session struct{ own *ownSession }

// What the copies of a Session share: as of a World, and the number of lines that were told.
type ownSession struct {
	at    *C.ct_session
	lines int
}

// NoLine is the error of a text that is not one line, or of a question that was told. The session is as it was.
var NoLine = errors.New("that is not one line, or a question was told")

// LineRefused is the error of a line that is refused: its number among those that were told, from 1, the line without blanks around it,
// and the fault, in the words of docs/SCHEDULES.md. It changed nothing.
type LineRefused struct {
	Number      int
	Line, Fault string
}

// Error gives what `ct_tool record` writes.
func (l LineRefused) Error() string { return fmt.Sprintf("line %d: %s: %s", l.Number, l.Line, l.Fault) }

// OpenSession makes a session that was told nothing. OutOfMemory.
func OpenSession() (*Session, error) {
	at := (*C.ct_session)(C.calloc(1, C.sizeof_ct_session))
	if at == nil {
		return nil, OutOfMemory
	}
	own := &ownSession{at, 0}
	runtime.SetFinalizer(own, (*ownSession).close)
	if err := refused(C.ct_session_open(at)); err != nil {
		own.close()
		return nil, err
	}
	return &Session{own}, nil
}

// Close lets go what the session keeps. It may be called again.
func (s *Session) Close() {
	if s != nil && s.own != nil {
		s.own.close()
	}
}

func (o *ownSession) close() {
	if o.at != nil {
		C.ct_session_close(o.at)
		C.free(unsafe.Pointer(o.at))
		o.at = nil
	}
}

// call makes a call of the library, and gives what waits then.
func (s *Session) call(call func(at *C.ct_session) C.uint32_t) ([]byte, error) {
	if s == nil || s.own == nil || s.own.at == nil {
		return nil, NotOpen
	}
	defer runtime.KeepAlive(s.own)
	if err := refused(call(s.own.at)); err != nil {
		return nil, err
	}
	length := C.ct_answers_length(s.own.at)
	room := make([]byte, length+1) // so that there is an address, also of no bytes
	C.ct_answers(s.own.at, (*C.uint8_t)(&room[0]), length)
	return room[:length], nil
}

// TellBytes tells the session bytes: lines, or parts of lines, each ended by a line feed. It gives the answers to the lines that they end.
func (s *Session) TellBytes(text []byte) ([]byte, error) {
	answers, err := s.call(func(at *C.ct_session) C.uint32_t {
		return C.ct_tell(at, start(text), C.size_t(len(text)))
	})
	if err == nil {
		s.own.lines += bytes.Count(text, []byte{'\n'})
	}
	return answers, err
}

// Ask gives the answer to a line, which may be a question, without its line feed; NoLine, or LineRefused.
func (s *Session) Ask(line string) (string, error) {
	if strings.Contains(line, "\n") {
		return "", NoLine
	}
	told, err := s.TellBytes([]byte(line + "\n"))
	if err != nil {
		return "", err
	}
	answer := strings.TrimSuffix(string(told), "\n")
	word, _, _ := strings.Cut(answer, " ")
	switch word {
	case "ok", "enabled", "next", "state", "waiting", "report", "record", "limits":
		return answer, nil
	}
	return "", LineRefused{s.own.lines, strings.TrimSpace(line), answer}
}

// Tell tells it a line, and gives the serial of the first envelope that its steps sent, and how many they sent; NoLine, or LineRefused.
func (s *Session) Tell(line string) (first, count uint32, err error) {
	answer, err := s.Ask(line)
	if err != nil {
		return 0, 0, err
	}
	var last uint32
	switch n, _ := fmt.Sscanf(answer, "ok %d-%d", &first, &last); {
	case n == 2:
		return first, last - first + 1, nil
	case n == 1:
		return first, 1, nil
	case answer == "ok":
		return 0, 0, nil
	}
	return 0, 0, NoLine
}

// Record gives the record of the steps so far: JSON, without a line feed; NoWorld where no step was told yet.
func (s *Session) Record() (string, error) {
	text, err := s.call(func(at *C.ct_session) C.uint32_t { return C.ct_record(at) })
	return string(text), err
}

// Diagram gives the diagram of the steps so far, as SVG; NoWorld, or TooLong where they are too many.
func (s *Session) Diagram() (string, error) {
	text, err := s.call(func(at *C.ct_session) C.uint32_t { return C.ct_diagram(at) })
	return string(text), err
}

// start is the address of the first byte; nil where there is none.
func start(text []byte) *C.uint8_t {
	if len(text) == 0 {
		return nil
	}
	return (*C.uint8_t)(&text[0])
}
