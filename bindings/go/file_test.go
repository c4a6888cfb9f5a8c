package agefile

import (
	"bytes"
	"errors"
	"io"
	"math/rand"
	"sync"
	"testing"
)

// Goroutines share a file, and two files share their source.
func TestShared(t *testing.T) {
	text := textOf(600000)
	data := sealed(text)
	files := []*File{opened(data), opened(data)}
	var group sync.WaitGroup
	for g := 0; g < 8; g++ {
		group.Add(1)
		go func(g int) {
			defer group.Done()
			random := rand.New(rand.NewSource(int64(g)))
			for i := 0; i < 60; i++ {
				at, n := random.Intn(len(text)), random.Intn(150000)
				into := make([]byte, n)
				got, err := files[g%2].ReadAt(into, int64(at))
				want := text[at:least(len(text), at+n)]
				if !bytes.Equal(into[:got], want) || (err != nil) != (got < n) || err != nil && err != io.EOF {
					t.Error(at, n, got, err)
				}
			}
		}(g)
	}
	group.Wait()
}

// What is damaged is refused where it is, and the rest can be read, before it and after it.
func TestDamageAtAPlace(t *testing.T) {
	text := textOf(200000)
	data := sealed(text)
	begin := payloadOf(data, 200000)
	damaged := flipped(data, begin+65552+100)
	file, seeker, into := opened(damaged), open(bytes.NewReader(damaged)), make([]byte, 10)
	for _, it := range []struct {
		at    int64
		wrong bool
	}{{0, false}, {70000, true}, {140000, false}, {65536, true}, {65530, true}, {199990, false}} {
		_, err := file.ReadAt(into, it.at)
		right := err == nil && bytes.Equal(into, text[it.at:it.at+10])
		if errors.Is(err, ErrNotWhole) != it.wrong || !it.wrong && !right {
			t.Error(it.at, err)
		}
		must(seeker.Seek(it.at, io.SeekStart))
		_, err = io.ReadFull(seeker, into)
		right = err == nil && bytes.Equal(into, text[it.at:it.at+10])
		if errors.Is(err, ErrNotWhole) != it.wrong || !it.wrong && !right {
			t.Error("sought", it.at, err)
		}
	}
	if _, err := file.ReadAt(into, -1); err == nil {
		t.Error("a negative place")
	}
	if n, err := file.ReadAt(into, 1<<60); n != 0 || err != io.EOF {
		t.Error("a place after the end", n, err)
	}
	for end := begin; end < len(data); end += 4099 {
		if _, err := OpenAt(bytes.NewReader(data[:end]), int64(end), pw()); !errors.Is(err, ErrNotWhole) {
			t.Error("a file that is cut opens:", end)
		}
	}
}

// A file that shrinks after it was opened: a place that is gone is an error, and no end.
func TestShrinks(t *testing.T) {
	text := textOf(200000)
	data := sealed(text)
	third := payloadOf(data, 200000) + 3*65552 // where the chunk after the place that is read begins
	for _, end := range []int{0, 100, 300, 65552, 140000, third - 1, third, len(data) - 1, len(data)} {
		under := &shrinking{data}
		file := must(OpenAt(under, int64(len(data)), pw()))
		under.data = data[:end]
		into := make([]byte, len(text))
		n, err := file.ReadAt(into[:10], 150000)
		right := err != nil || bytes.Equal(into[:10], text[150000:150010])
		if (err == nil) != (end >= third) || err == io.EOF || !right {
			t.Error(end, n, err)
		}
		n, err = file.ReadAt(into, 0)
		if (err == nil) != (end == len(data)) || err == io.EOF || !bytes.Equal(into[:n], text[:n]) {
			t.Error("all, of", end, n, err)
		}
	}
}

// A size that isn't the file's, as a stale listing gives it, never makes a text of another length.
func TestWrongSizes(t *testing.T) {
	for _, n := range lengths {
		text := textOf(n)
		data := sealed(text)
		for off := int64(-20); off <= 70000; off += 1 + 30*(off/20) {
			file, err := OpenAt(bytes.NewReader(data), int64(len(data))+off, pw())
			if err != nil {
				if off == 0 {
					t.Fatal(n, err)
				}
				continue
			}
			got, err := io.ReadAll(io.NewSectionReader(file, 0, 1<<40))
			if err != nil || !bytes.Equal(got, text) || file.Size() != int64(n) {
				t.Fatalf("%d bytes, size off by %d: Size %d, %d bytes, %v", n, off, file.Size(), len(got), err)
			}
		}
	}
}

// broken is a file that can't be read from a place on.
type broken struct {
	*bytes.Reader
	from int64
}

func (b *broken) ReadAt(into []byte, at int64) (int, error) {
	if at+int64(len(into)) <= b.from {
		return b.Reader.ReadAt(into, at)
	}
	if at >= b.from {
		return 0, io.ErrClosedPipe
	}
	n, _ := b.Reader.ReadAt(into[:b.from-at], at)
	return n, io.ErrClosedPipe
}

// A ReadAt that fails, or returns a count that none may, isn't damage: in the header, in the last chunk, and in one that is read later.
func TestReadAtFails(t *testing.T) {
	text := textOf(200_000)
	data := sealed(text)
	size := int64(len(data))
	for _, from := range []int64{0, 30, size - 100} {
		if _, err := OpenAt(&broken{bytes.NewReader(data), from}, size, pw()); err != io.ErrClosedPipe {
			t.Error(from, err)
		}
	}
	under := &broken{bytes.NewReader(data), size}
	file := must(OpenAt(under, size, pw()))
	under.from = size - 10_000 // in chunk 2
	for _, n := range []int{200_000, 190_000} {
		got := make([]byte, n)
		if n, err := file.ReadAt(got, 0); n != 131_072 || err != io.ErrClosedPipe || !bytes.Equal(got[:n], text[:n]) {
			t.Error(n, err)
		}
	}
	for _, n := range []miscounts{-1, 1 << 20} {
		if _, err := OpenAt(n, size, pw()); err != errRead {
			t.Error(n, err)
		}
		file := opened(data)
		file.src = n
		if _, err := file.ReadAt(make([]byte, 10), 0); err != errRead {
			t.Error(n, err)
		}
	}
}

// io.Copy of a File, from any place on, and up to a damaged chunk.
func TestCopyOfFile(t *testing.T) {
	text := textOf(200000)
	data := sealed(text)
	for _, at := range []int64{0, 1, 65536, 131071, 200000} {
		file := opened(data)
		must(file.Seek(at, io.SeekStart))
		var out bytes.Buffer
		n, err := io.Copy(&out, file)
		if err != nil || n != 200000-at || !bytes.Equal(out.Bytes(), text[at:]) {
			t.Error(at, n, err)
		}
	}
	var out bytes.Buffer
	file := opened(flipped(data, len(data)-70000)) // chunk 1 or 2
	if _, err := io.Copy(&out, file); !errors.Is(err, ErrNotWhole) || !bytes.Equal(out.Bytes(), text[:out.Len()]) || out.Len()%65536 != 0 {
		t.Error("damaged", out.Len(), err)
	}
}
