package agefile

/*
#include "agefile.h"
*/
import "C"

import (
	"errors"
	"fmt"
)

// What errors.Is finds in an error.
var (
	// ErrWrongKey: another passphrase or another key, or a file for another kind of key. An Identity returns it if no stanza is its own.
	ErrWrongKey = errors.New("agefile: the key isn't the file's")
	// ErrNotWhole: the file isn't as its writer left it, or is no age file: it was truncated, damaged or altered.
	ErrNotWhole = errors.New("agefile: the file isn't whole")
	// ErrTruncated is a part of ErrNotWhole: the file ends in its header, before a chunk, or in the first 15 bytes of one. Nearly all
	// truncated files end elsewhere, and can't be told from damaged ones.
	ErrTruncated = errors.New("agefile: the file is truncated")
	// ErrWorkTooHigh: the file demands more work than the MaxWork of the passphrase.
	ErrWorkTooHigh = errors.New("agefile: the work factor is above the most that is allowed")
	// ErrMemory: there isn't enough memory, as for the work of a passphrase.
	ErrMemory = errors.New("agefile: there isn't enough memory")
)

// A Fault says what is wrong with a file, or with an argument, by its number in docs/FAULTS.md.
type Fault struct {
	Number   int
	Chunk    int64  // -1 if it isn't about one chunk
	Argument string // with 255, which argument is out of range, and what its range is
}

// Name is the fault's name in docs/FAULTS.md, as "WrongKey".
func (f *Fault) Name() string { return C.GoString(C.agefile_fault_name(C.int(f.Number))) }

func (f *Fault) Error() string {
	text, chunk := f.Argument, ""
	if text == "" {
		text = C.GoString(C.agefile_fault_text(C.int(f.Number)))
	}
	if f.Chunk >= 0 {
		chunk = fmt.Sprintf(", chunk %d", f.Chunk)
	}
	return fmt.Sprintf("agefile: %s (%d %s%s)", text, f.Number, f.Name(), chunk)
}

// Is lets errors.Is find the kind of a fault.
func (f *Fault) Is(target error) bool {
	switch C.agefile_fault_kind(C.int(f.Number)) {
	case C.AGEFILE_KIND_WRONG_KEY:
		return target == ErrWrongKey
	case C.AGEFILE_KIND_NOT_WHOLE:
		return target == ErrNotWhole || target == ErrTruncated && f.isCut()
	case C.AGEFILE_KIND_WORK:
		return target == ErrWorkTooHigh
	case C.AGEFILE_KIND_MEMORY:
		return target == ErrMemory
	}
	return false
}

func (f *Fault) isCut() bool {
	return f.Number == C.AGEFILE_CHUNK_CUT || f.Number == C.AGEFILE_TRUNCATED || f.Number == C.AGEFILE_CUT_IN_HEADER
}

// answered is the fault of an answer.
func answered(answer C.int, chunk int64) error {
	if answer == 0 {
		return nil
	}
	return &Fault{Number: int(answer), Chunk: chunk}
}

// outOfRange says which argument can't be used.
func outOfRange(argument string) error {
	return &Fault{Number: C.AGEFILE_MISUSED, Chunk: -1, Argument: argument}
}

// truncatedAt is the fault of a file whose text ends before this chunk, and shouldn't.
func truncatedAt(chunk int64) error { return answered(C.AGEFILE_TRUNCATED, chunk) }
