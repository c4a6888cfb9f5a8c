package agefile

import (
	"errors"
	"io"
	"sync"
	"sync/atomic"
)

// maxWorkers is the greatest number of goroutines.
const maxWorkers = 64

var errPart = errors.New("agefile: a ReadAt or a WriteAt didn't return")

// pieces are those of a plaintext. Goroutines take them in their order, so that all before one that fails were taken.
type pieces struct {
	dst  io.WriterAt
	text *File
	step int64        // how long each is
	next atomic.Int64 // where the next one begins
}

// An outcome is how a goroutine ended: with which piece, and why if that failed.
type outcome struct {
	at       int64
	err      error
	panicked any // by a ReadAt or a WriteAt
}

// DecryptTo decrypts a file of this many bytes by 1 to 64 goroutines, and returns the length of the plaintext. dst has all of it only if the
// error is nil: the last chunk, which proves the length, is opened first. If pieces of it fail, the error is that of the first one, and no
// more are begun.
func DecryptTo(dst io.WriterAt, src io.ReaderAt, size int64, workers int, by ...Identity) (int64, error) {
	if dst == nil {
		return 0, errNil
	}
	if workers < 1 || workers > maxWorkers {
		return 0, outOfRange("workers must be 1 to 64")
	}
	text, err := OpenAt(src, size, by...)
	if err != nil {
		return 0, err
	}
	share := (text.last + int64(workers)) / int64(workers) // of the chunks, for each goroutine
	p := &pieces{dst: dst, text: text, step: least(16, share) * chunkLen}
	ended := make([]outcome, workers)
	var all sync.WaitGroup
	for i := range ended {
		all.Add(1)
		go func(it *outcome) {
			defer all.Done()
			p.work(it)
		}(&ended[i])
	}
	all.Wait()
	first := outcome{at: text.size}
	for _, it := range ended {
		if it.panicked != nil {
			panic(it.panicked) // here, where the caller can recover it
		}
		if it.err != nil && it.at < first.at {
			first = it
		}
	}
	if first.err != nil {
		return 0, first.err
	}
	return text.size, nil
}

// work copies pieces until there are none, or one fails: then nobody takes another.
func (p *pieces) work(it *outcome) {
	defer func() {
		if it.panicked = recover(); it.err != nil {
			p.next.Store(p.text.size)
		}
	}()
	for room := make([]byte, p.step); it.err == nil; {
		if it.at = p.next.Add(p.step) - p.step; it.at >= p.text.size {
			return
		}
		it.err = errPart // unless it returns
		it.err = p.copy(room[:least(p.step, p.text.size-it.at)], it.at)
	}
}

// copy decrypts a piece.
func (p *pieces) copy(room []byte, at int64) error {
	if _, err := p.text.ReadAt(room, at); err != nil {
		return err
	}
	n, err := p.dst.WriteAt(room, at)
	_, err = written(len(room), n, err)
	return err
}
