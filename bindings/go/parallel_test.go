package agefile

import (
	"bytes"
	"errors"
	"io"
	"math"
	"runtime"
	"sync/atomic"
	"testing"
	"time"
)

// memoryAt is what is written to at places.
type memoryAt []byte

func (m memoryAt) WriteAt(p []byte, at int64) (int, error) {
	if at+int64(len(p)) > int64(len(m)) {
		return 0, io.ErrShortBuffer
	}
	return copy(m[at:], p), nil
}

func decryptTo(dst io.WriterAt, data []byte, workers int) (int64, error) {
	return DecryptTo(dst, bytes.NewReader(data), int64(len(data)), workers, pw())
}

func TestDecryptTo(t *testing.T) {
	for _, n := range append(lengths, 9*65_536+1_000) {
		text := textOf(n)
		data := sealed(text)
		for _, workers := range []int{1, 2, 3, 7, 64} {
			out := make(memoryAt, n)
			if size, err := decryptTo(out, data, workers); err != nil || size != int64(n) || !bytes.Equal(out, text) {
				t.Errorf("%d bytes, %d workers: %d, %v", n, workers, size, err)
			}
		}
	}
	for _, n := range []int{math.MinInt, -1, 0, maxWorkers + 1, 1 << 50, math.MaxInt} {
		if _, err := decryptTo(make(memoryAt, 200_000), sealed(nil), n); numberOf(err) != 255 {
			t.Error(n, "workers:", err)
		}
	}
}

// The fault of the first chunk that has one, whoever finds it; and sinks that fail.
func TestDecryptToFaults(t *testing.T) {
	const n = 9*65_536 + 1_000
	data := sealed(textOf(n))
	begin := payloadOf(data, n)
	for _, chunks := range [][]int{{0}, {8}, {3, 4}, {7, 2}, {6, 5, 1}, {9}} {
		bad, first := data, chunks[0]
		for _, it := range chunks {
			bad, first = flipped(bad, begin+it*65_552+5), least(first, it)
		}
		for _, workers := range []int{1, 2, 5} {
			_, err := decryptTo(make(memoryAt, n), bad, workers)
			var fault *Fault
			if !errors.As(err, &fault) || fault.Name() != "ChunkDamaged" || fault.Chunk != int64(first) {
				t.Errorf("damage in %v, %d workers: %v", chunks, workers, err)
			}
		}
	}
	for _, it := range []struct {
		dst  io.WriterAt
		want error
	}{{make(memoryAt, 300_000), io.ErrShortBuffer}, {brief{}, io.ErrShortWrite}, {miscounts(-1), errWrite}, {miscounts(1 << 25), errWrite}} {
		if _, err := decryptTo(it.dst, data, 4); err != it.want {
			t.Error(err, it.want)
		}
	}
	if _, err := decryptTo(brief{}, data[:len(data)-1], 4); !errors.Is(err, ErrNotWhole) {
		t.Error(err)
	}
}

// pausing is a file whose read at a place takes long.
type pausing struct {
	*bytes.Reader
	place int64
}

func (p pausing) ReadAt(into []byte, at int64) (int, error) {
	if at == p.place {
		time.Sleep(300 * time.Millisecond)
	}
	return p.Reader.ReadAt(into, at)
}

// A part goes on if one after it failed before: the fault of the first is reported.
func TestDecryptToGoesOn(t *testing.T) {
	const n = 40 * 65_536
	data := sealed(textOf(n))
	begin := payloadOf(data, n)
	data = flipped(data, begin+18*65_552+5, begin+21*65_552+5)
	_, err := DecryptTo(make(memoryAt, n), pausing{bytes.NewReader(data), int64(begin)}, int64(len(data)), 2, pw())
	var fault *Fault
	if !errors.As(err, &fault) || fault.Chunk != 18 {
		t.Error(err)
	}
}

// halting fails at its beginning, and counts what is written elsewhere, which takes long after that.
type halting struct {
	writes *int32
	failed chan struct{}
}

func (h halting) WriteAt(p []byte, at int64) (int, error) {
	if at == 0 {
		close(h.failed)
		return 0, io.ErrClosedPipe
	}
	if atomic.AddInt32(h.writes, 1) == 1 {
		<-h.failed
		time.Sleep(300 * time.Millisecond)
	}
	return len(p), nil
}

// A part stops if one before it failed.
func TestDecryptToStops(t *testing.T) {
	writes := int32(0)
	_, err := decryptTo(halting{&writes, make(chan struct{})}, sealed(make([]byte, 160*65_536)), 2)
	if err != io.ErrClosedPipe || writes > 2 {
		t.Error(err, writes)
	}
}

// ending is a sink that ends the goroutine of a part, not the first.
type ending func()

func (e ending) WriteAt(p []byte, at int64) (int, error) {
	if at > 0 {
		e()
	}
	return len(p), nil
}

// A part whose goroutine ends isn't written, and a panic is the caller's.
func TestDecryptToEnds(t *testing.T) {
	data := sealed(textOf(200_000))
	if n, err := decryptTo(ending(runtime.Goexit), data, 4); n != 0 || err == nil {
		t.Error("a part is missing:", n, err)
	}
	defer func() {
		if it := recover(); it != "a sink" {
			t.Error(it)
		}
	}()
	_, err := decryptTo(ending(func() { panic("a sink") }), data, 4)
	t.Error("no panic:", err)
}
