package malletochre

// #include "ct.h"
import "C"

import "fmt"

// Refusal is why a step or a call is refused, by its number in ct.h. 1 to 24 are the causes of a step, the first that applies, in the
// order of testing (docs/ALGORITHM.md).
type Refusal uint32

// What calls answer; ct.h says when.
const (
	NoSuchMember    Refusal = C.CT_NO_SUCH_MEMBER
	Crashed         Refusal = C.CT_CRASHED
	NotWaiting      Refusal = C.CT_NOT_WAITING
	Busy            Refusal = C.CT_BUSY
	Nothing         Refusal = C.CT_NOTHING
	Idle            Refusal = C.CT_IDLE
	WrongPhase      Refusal = C.CT_WRONG_PHASE
	Decided         Refusal = C.CT_DECIDED
	TooFew          Refusal = C.CT_TOO_FEW
	NotLargest      Refusal = C.CT_NOT_LARGEST
	NoProposal      Refusal = C.CT_NO_PROPOSAL
	HasProposal     Refusal = C.CT_HAS_PROPOSAL
	Undecided       Refusal = C.CT_UNDECIDED
	BadCommand      Refusal = C.CT_BAD_COMMAND
	NotSent         Refusal = C.CT_NOT_SENT
	StillWaiting    Refusal = C.CT_STILL_WAITING
	FullSubmissions Refusal = C.CT_FULL_SUBMISSIONS
	FullInstances   Refusal = C.CT_FULL_INSTANCES
	FullRounds      Refusal = C.CT_FULL_ROUNDS
	FullEnvelopes   Refusal = C.CT_FULL_ENVELOPES
	FullCells       Refusal = C.CT_FULL_CELLS
	FullSteps       Refusal = C.CT_FULL_STEPS
	OutOfMemory     Refusal = C.CT_OUT_OF_MEMORY
	Board           Refusal = C.CT_BOARD
	NotOpen         Refusal = C.CT_NOT_OPEN
	AlreadyOpen     Refusal = C.CT_ALREADY_OPEN
	BadStep         Refusal = C.CT_BAD_STEP
	BadSetup        Refusal = C.CT_BAD_SETUP
	NoWorld         Refusal = C.CT_NO_WORLD
	TooLong         Refusal = C.CT_TOO_LONG
	NoRecord        Refusal = C.CT_NO_RECORD
	BadOptions      Refusal = C.CT_BAD_OPTIONS
	NoTrial         Refusal = C.CT_NO_TRIAL
)

var names = [...]string{
	NoSuchMember:    "NoSuchMember",
	Crashed:         "Crashed",
	NotWaiting:      "NotWaiting",
	Busy:            "Busy",
	Nothing:         "Nothing",
	Idle:            "Idle",
	WrongPhase:      "WrongPhase",
	Decided:         "Decided",
	TooFew:          "TooFew",
	NotLargest:      "NotLargest",
	NoProposal:      "NoProposal",
	HasProposal:     "HasProposal",
	Undecided:       "Undecided",
	BadCommand:      "BadCommand",
	NotSent:         "NotSent",
	StillWaiting:    "StillWaiting",
	FullSubmissions: "Full(Submissions)",
	FullInstances:   "Full(Instances)",
	FullRounds:      "Full(Rounds)",
	FullEnvelopes:   "Full(Envelopes)",
	FullCells:       "Full(Cells)",
	FullSteps:       "Full(Steps)",
	OutOfMemory:     "OutOfMemory",
	Board:           "Board",
	NotOpen:         "NotOpen",
	AlreadyOpen:     "AlreadyOpen",
	BadStep:         "BadStep",
	BadSetup:        "BadSetup",
	NoWorld:         "NoWorld",
	TooLong:         "TooLong",
	NoRecord:        "NoRecord",
	BadOptions:      "BadOptions",
	NoTrial:         "NoTrial",
}

// Error gives the refusal's name, as records and schedules have it: "TooFew", "Full(Cells)".
func (r Refusal) Error() string {
	if r > 0 && int(r) < len(names) {
		return names[r]
	}
	return fmt.Sprintf("refusal %d", uint32(r))
}

// refused is nil at 0.
func refused(status C.uint32_t) error {
	if status == C.CT_DONE {
		return nil
	}
	return Refusal(status)
}
