package agefile

import (
	"errors"
	"fmt"
	"io"
)

var (
	errClosed = errors.New("agefile: the file is closed")
	errPanic  = errors.New("agefile: a Write of the writer below didn't return")
)

// gathered is how many bytes of short writes are sealed together: a call of C takes as long as sealing some hundred bytes.
const gathered = 16_384

// A Writer writes an age file, which is complete once Close has returned nil. One goroutine at a time may use it. It holds 147 KiB.
//
// Close seals what was written so far as the complete plaintext. So never call it after the source of the plaintext failed: call Abandon,
// or defer Abandon instead of Close; it does nothing after a Close.
//
// Up to a chunk of 65,536 bytes is held before it is sealed, so the writer below may fail in a later call. A copy of a Writer isn't one:
// each of its calls fails.
type Writer struct {
	self    *Writer // which a copy isn't
	dst     io.Writer
	encoder encoder
	held    []byte // short writes, which the encoder hasn't got yet
	block   []byte // where a block goes
	err     error  // why nothing more can be written
}

// Encrypt begins an age file for these recipients, or for one passphrase, and writes its header.
func Encrypt(dst io.Writer, to ...Recipient) (*Writer, error) {
	if dst == nil {
		return nil, errNil
	}
	e, err := encoderFor(to)
	if err != nil {
		return nil, err
	}
	w := &Writer{dst: dst, encoder: e, held: make([]byte, 0, gathered), block: make([]byte, blockLen)}
	w.self = w
	front, err := e.begin()
	if err == nil {
		err = w.put(front)
	}
	if err != nil {
		w.Abandon()
		return nil, err
	}
	return w, nil
}

// Format hides the key and the plaintext in every verb.
func (w Writer) Format(state fmt.State, _ rune) { io.WriteString(state, "agefile.Writer") }

// put passes on bytes of the file.
func (w *Writer) put(sealed []byte) error {
	w.err = errPanic // unless that Write returns: without these bytes the file can't be finished
	_, w.err = writeAll(w.dst, sealed)
	return w.err
}

// Write implements io.Writer. After an error the file can't be finished.
func (w *Writer) Write(text []byte) (int, error) {
	if err := own(w.self, w); err != nil {
		return 0, err
	}
	if w.err == nil && len(w.held)+len(text) <= cap(w.held) {
		w.held = append(w.held, text...)
		return len(text), nil
	}
	if _, err := w.seal(w.held); err != nil {
		return 0, err
	}
	w.held = w.held[:0]
	return w.seal(text)
}

// seal gives the encoder text, and passes on what comes of the file.
func (w *Writer) seal(text []byte) (int, error) {
	done := 0
	for w.err == nil && done < len(text) {
		piece := text[done:least(done+chunkLen, len(text))]
		n, err := w.encoder.encode(piece, w.block)
		if err != nil {
			w.err = err
		} else if w.put(w.block[:n]) == nil {
			done += len(piece)
		}
	}
	return done, w.err
}

// Close seals the last chunk, so that the file is complete, even if plaintext is missing: if the source of the plaintext failed, call
// Abandon first. It doesn't close the writer below.
func (w *Writer) Close() error {
	if err := own(w.self, w); err != nil {
		return err
	}
	if _, err := w.seal(w.held); err != nil {
		w.wipe()
		return err
	}
	n, err := w.encoder.end(w.block)
	if err == nil {
		err = w.put(w.block[:n])
	}
	if w.err = err; err == nil {
		w.err = errClosed
	}
	w.wipe()
	return err
}

// Abandon leaves the file without its last chunk: every reader refuses it. After Close it does nothing.
func (w *Writer) Abandon() {
	if own(w.self, w) != nil {
		return
	}
	if w.err == nil {
		w.err = errClosed
	}
	w.wipe()
}

// wipe overwrites the file key and the plaintext that is held.
func (w *Writer) wipe() {
	w.encoder.free()
	wipe(w.held[:cap(w.held)])
	w.held = w.held[:0]
}
