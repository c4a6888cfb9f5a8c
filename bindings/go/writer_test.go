package agefile

import (
	"bytes"
	"errors"
	"fmt"
	"io"
	"math/rand"
	"sync"
	"testing"
	"testing/iotest"
)

// Texts in pieces of any length, short ones too, and a sink that fails, which a later call sees.
func TestWriterInPieces(t *testing.T) {
	for _, n := range append(lengths, 300_000) {
		text := textOf(n)
		for _, size := range []int{1, 100, 999, 9_000, 16_384, 16_385, 65_536, 70_000} {
			if size == 1 && n > 70_000 {
				continue
			}
			var out bytes.Buffer
			w := created(&out)
			for at := 0; at < n; at += size {
				piece := text[at:least(n, at+size)]
				if count, err := w.Write(piece); count != len(piece) || err != nil {
					t.Fatal(n, size, count, err)
				}
			}
			well(w.Close())
			if got, err := whole(out.Bytes(), pw()); err != nil || !bytes.Equal(got, text) {
				t.Error(n, size, len(got), err)
			}
		}
	}
	text := textOf(70_000)
	for _, size := range []int{100, 16_385, 70_000} {
		sink := failingSink(100_000)
		w, err := Encrypt(&sink, pw())
		for i := 0; err == nil && i < 300_000/size+2; i++ {
			_, err = w.Write(text[:size])
		}
		if err != io.ErrClosedPipe || w.Close() != io.ErrClosedPipe {
			t.Errorf("a sink that fails, writes of %d: %v", size, err)
		}
	}
}

// A file that nobody closed, or that was abandoned, isn't whole to anybody; and it isn't written on.
func TestAbandon(t *testing.T) {
	for _, n := range []int{0, 100, 70_000, 131_072} {
		for _, ends := range []bool{false, true} {
			var out bytes.Buffer
			w := created(&out)
			must(w.Write(textOf(n)))
			if ends {
				w.Abandon()
				if _, err := w.Write([]byte("x")); err == nil {
					t.Error("an abandoned file is written on")
				}
				if err := w.Close(); err == nil {
					t.Error("an abandoned file is closed")
				}
			}
			for _, call := range []func([]byte, ...Identity) ([]byte, error){whole, wholeAt} {
				if _, err := call(out.Bytes(), pw()); !errors.Is(err, ErrTruncated) {
					t.Error(n, ends, err)
				}
			}
			if _, err := DecryptTo(make(memoryAt, n), bytes.NewReader(out.Bytes()), int64(out.Len()), 2, pw()); !errors.Is(err, ErrTruncated) {
				t.Error(n, ends, err)
			}
		}
	}
	var out bytes.Buffer
	w := created(&out)
	well(w.Close())
	size := out.Len()
	w.Abandon()
	if err := w.Close(); err != errClosed || out.Len() != size {
		t.Error("closed twice:", err)
	}
	reads(t, &out, pw(), "")
}

// What one file was given never comes into another one, however the first ended.
func TestNothingIsLeft(t *testing.T) {
	for _, ends := range []func(*Writer){(*Writer).Abandon, func(*Writer) {}, func(w *Writer) { _ = w.Close() }} {
		w := created(io.Discard)
		must(w.Write([]byte("SECRET OF A")))
		ends(w)
		reads(t, bytes.NewReader(sealed([]byte("hello bob"), low("bob"))), low("bob"), "hello bob")
	}
}

// A copy that fails: with Abandon deferred, the file isn't whole.
func TestFailedCopy(t *testing.T) {
	for _, fails := range []bool{false, true} {
		var out bytes.Buffer
		text := io.Reader(bytes.NewReader(textOf(1000)))
		if fails {
			text = io.MultiReader(text, iotest.ErrReader(io.ErrClosedPipe))
		}
		err := func() error {
			w, err := Encrypt(&out, pw())
			if err != nil {
				return err
			}
			defer w.Abandon()
			if _, err := io.Copy(w, text); err != nil {
				return err
			}
			return w.Close()
		}()
		if errors.Is(err, io.ErrClosedPipe) != fails {
			t.Error(fails, err)
		}
		if _, err := whole(out.Bytes(), pw()); (err != nil) != fails {
			t.Error("the file:", fails, err)
		}
	}
}

// A copy of a Writer is refused, and the Writer goes on: two with one key would show their plaintexts to whoever has both files.
func TestCopiedWriter(t *testing.T) {
	text := textOf(100_000)
	for i, call := range []func(w *Writer) error{
		func(w *Writer) error { return second(w.Write(text)) }, (*Writer).Close,
		func(w *Writer) error { w.Abandon(); return w.Close() },
	} {
		var out bytes.Buffer
		w := created(&out)
		must(w.Write(text[:1000]))
		size, other := out.Len(), *w
		if err := call(&other); err != errCopied || out.Len() != size {
			t.Error(i, err, out.Len(), size)
		}
		must(w.Write(text[1000:]))
		well(w.Close())
		reads(t, &out, pw(), string(text))
	}
}

// A sink that takes less than it is given, or returns a count that no Write may, is an error, in the header and in each chunk.
func TestSinksThatMiscount(t *testing.T) {
	for _, it := range []struct {
		sink io.Writer
		want error
	}{{brief{}, io.ErrShortWrite}, {miscounts(-1), errWrite}, {miscounts(1 << 20), errWrite}} {
		if w, err := Encrypt(it.sink, pw()); w != nil || err != it.want {
			t.Error("a header:", err)
		}
		w := created(io.Discard)
		w.dst = it.sink
		if n, err := w.Write(textOf(200_000)); n > 65_536 || err != it.want {
			t.Error("a chunk:", n, err)
		}
		w = created(io.Discard)
		w.dst = it.sink
		if first, again := w.Close(), w.Close(); first != it.want || again != it.want {
			t.Error("the last chunk:", first, again)
		}
	}
}

// panics is a sink whose call of this number panics.
type panics int

func (p *panics) Write(text []byte) (int, error) {
	if *p--; *p == 0 {
		panic("a sink")
	}
	return len(text), nil
}

// A file that lacks what a Write that panicked was given isn't finished.
func TestSinkThatPanics(t *testing.T) {
	sink := panics(2)
	w := created(&sink)
	func() {
		defer func() { _ = recover() }()
		must(w.Write(textOf(70_000)))
	}()
	if _, err := w.Write(textOf(70_000)); err != errPanic {
		t.Error("it is written on:", err)
	}
	if err := w.Close(); err != errPanic {
		t.Error("it is closed:", err)
	}
}

// ownFiles writes and reads files of its own, in each way: what is wrong.
func ownFiles(number int) error {
	rnd, text := rand.New(rand.NewSource(int64(number))), textOf(150_000+number)
	for turn := 0; turn < 15; turn++ {
		var out bytes.Buffer
		w, err := Encrypt(&out, pw())
		for at := 0; err == nil && at < len(text); {
			n := least(rnd.Intn(70_000), len(text)-at)
			_, err = w.Write(text[at : at+n])
			at += n
		}
		if err == nil {
			err = w.Close()
		}
		if err != nil {
			return err
		}
		if got, err := whole(out.Bytes(), pw()); err != nil || !bytes.Equal(got, text) {
			return fmt.Errorf("a Reader: %w", err)
		}
		at, got := rnd.Intn(100_000), make([]byte, 50_000)
		file, err := OpenAt(bytes.NewReader(out.Bytes()), int64(out.Len()), pw())
		if err == nil {
			_, err = file.ReadAt(got, int64(at))
		}
		if err != nil || !bytes.Equal(got, text[at:at+len(got)]) {
			return fmt.Errorf("a File: %w", err)
		}
	}
	return nil
}

// Goroutines with files of their own. tests/library/test_go.py runs it under the race detector.
func TestFilesOfTheirOwn(t *testing.T) {
	var all sync.WaitGroup
	for i := 0; i < 8; i++ {
		all.Add(1)
		go func(i int) {
			defer all.Done()
			if err := ownFiles(i); err != nil {
				t.Error(err)
			}
		}(i)
	}
	all.Wait()
}
