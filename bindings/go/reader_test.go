package agefile

import (
	"archive/zip"
	"bytes"
	"errors"
	"io"
	"math/rand"
	"net/url"
	"os"
	"runtime"
	"testing"
	"testing/iotest"
	"time"
)

// What testing/iotest asks of readers, over sources that return in each way that io.Reader allows.
func TestReader(t *testing.T) {
	for _, n := range lengths {
		text := textOf(n)
		data := sealed(text)
		for name, wrap := range map[string]func(io.Reader) io.Reader{
			"plain": func(r io.Reader) io.Reader { return r }, "hidden": func(r io.Reader) io.Reader { return hidden{r} },
			"half": iotest.HalfReader, "with its end": iotest.DataErrReader, "a byte at a time": iotest.OneByteReader,
		} {
			r, err := Decrypt(wrap(bytes.NewReader(data)), pw())
			if err != nil {
				t.Fatal(n, name, err)
			}
			if name != "plain" { // (iotest.TestReader wants any io.Seeker to seek)
				err = iotest.TestReader(struct{ io.Reader }{r}, text)
			} else {
				err = iotest.TestReader(r, text)
			}
			if err != nil {
				t.Error(n, name, err)
			}
		}
		var out bytes.Buffer
		count, err := io.Copy(&out, open(bytes.NewReader(data)))
		if err != nil || count != int64(n) || !bytes.Equal(out.Bytes(), text) {
			t.Error(n, "copied", count, err)
		}
		if err := iotest.TestReader(opened(data), text); err != nil {
			t.Error(n, "at any place", err)
		}
		if got, err := whole(data[:len(data)-1], pw()); err == nil || len(got) > n/65536*65536 {
			t.Error(n, "cut", err)
		}
	}
}

// A header that is there is answered, and a chunk that is there is read, though the sender sends nothing more and doesn't close.
func TestEarlyAnswer(t *testing.T) {
	for _, key := range []*PassphraseKey{pw(), low("other")} {
		source, sink := io.Pipe()
		defer sink.Close()
		text := textOf(65_536)
		go func() { _, _ = sink.Write(sealed(text)) }()
		r, err := Decrypt(source, key)
		if key.text[0] == 'o' {
			if !errors.Is(err, ErrWrongKey) {
				t.Error(err)
			}
			continue
		}
		well(err)
		got := make([]byte, 65_536)
		if _, err := io.ReadFull(r, got); err != nil || !bytes.Equal(got, text) {
			t.Error(err)
		}
	}
}

// long is the file of an empty text with a header of some 600,000 bytes.
func long() []byte {
	version, rest, _ := bytes.Cut(sealed(nil), []byte("\n"))
	stanzas := bytes.Repeat([]byte("-> --- ---\nAAAA\n"), 40_000)
	return bytes.Join([][]byte{version, append(stanzas, rest...)}, []byte("\n"))
}

// A header that comes in small pieces isn't tried at each of them, and is answered once it is there. A try takes some milliseconds, so that
// one at each piece would take many minutes.
func TestSlowHeader(t *testing.T) {
	begun := time.Now()
	_, err := Decrypt(io.MultiReader(iotest.OneByteReader(bytes.NewReader(long())), iotest.ErrReader(io.ErrClosedPipe)), pw())
	if numberOf(err) != 9 {
		t.Error(err)
	}
	if took := time.Since(begun); took > 20*time.Second {
		t.Errorf("it takes %v", took)
	}
}

// A long header, with what is read beyond it.
func TestLongHeader(t *testing.T) {
	for _, n := range []int{0, 1, 40_000, 65_000, 70_000, 700_000} {
		own := &keyHolder{kind: "own"}
		text := textOf(150_000)
		data := sealed(text, own, given{{Type: "long", Body: make([]byte, n)}})
		for _, call := range []func([]byte, ...Identity) ([]byte, error){whole, wholeAt} {
			if got, err := call(data, own); err != nil || !bytes.Equal(got, text) {
				t.Error(n, len(got), err)
			}
		}
	}
}

// A read that fails is reported as it is, and the text can be read on.
func TestReadOn(t *testing.T) {
	text := textOf(200000)
	r := open(&stumbling{data: sealed(text)})
	var got []byte
	into := make([]byte, 70000)
	for stumbled := 0; ; {
		n, err := r.Read(into[:50000+stumbled%2*20000]) // (into a chunk's room, and into a whole one)
		got = append(got, into[:n]...)
		if err == io.EOF {
			if stumbled == 0 {
				t.Error("no read failed")
			}
			break
		}
		if err != nil {
			if !errors.Is(err, ErrTruncated) || !errors.Is(err, ErrNotWhole) || numberOf(err) != 0 {
				t.Fatal(err)
			}
			stumbled++
		}
	}
	if !bytes.Equal(got, text) {
		t.Error("another text")
	}
}

// stumbling fails each third read, as one does whose own source was cut.
type stumbling struct {
	data  []byte
	calls int
}

func (s *stumbling) Read(into []byte) (int, error) {
	if s.calls++; s.calls%3 == 0 {
		return 0, io.ErrUnexpectedEOF
	}
	if len(s.data) == 0 {
		return 0, io.EOF
	}
	n := copy(into[:least(len(into), 30000)], s.data)
	s.data = s.data[n:]
	return n, nil
}

// All of the text before a damaged chunk is returned, then no byte and the fault, again and again.
func TestBeforeAFault(t *testing.T) {
	text := textOf(200000)
	data := sealed(text)
	data = flipped(data, payloadOf(data, 200000)+2*65552+100)
	for _, r := range []*Reader{open(bytes.NewReader(data)), open(hidden{bytes.NewReader(data)})} {
		var got []byte
		var err error
		for into := make([]byte, 1<<20); err == nil; {
			var n int
			n, err = r.Read(into)
			if got = append(got, into[:n]...); n > 0 && err != nil {
				t.Error(n, "bytes with", err)
			}
		}
		if !errors.Is(err, ErrNotWhole) || !bytes.Equal(got, text[:131072]) {
			t.Error(len(got), err)
		}
		if n, again := r.Read(make([]byte, 10)); n != 0 || again != err {
			t.Error("another end:", again)
		}
	}
	into := make([]byte, 1<<20)
	n, err := opened(data).ReadAt(into, 1000)
	if !errors.Is(err, ErrNotWhole) || !bytes.Equal(into[:n], text[1000:131072]) {
		t.Error("at a place:", n, err)
	}
}

// No file key is left in a reader that has ended and can't go back, nor in a writer that is closed or abandoned.
func TestKeysAreOverwritten(t *testing.T) {
	data := sealed(textOf(70000))
	for _, it := range [][]byte{data, flipped(data, len(data)-1)} {
		r := open(hidden{bytes.NewReader(it)})
		if isZero(r.decoder.memory) {
			t.Error("no key to read with")
		}
		_, first := io.Copy(io.Discard, r)
		if !isZero(r.decoder.memory) {
			t.Error("a reader's key is left")
		}
		if _, err := r.Read(make([]byte, 10)); err != first && (first != nil || err != io.EOF) {
			t.Error("another end:", err, first)
		}
	}
	for _, end := range []func(w *Writer){(*Writer).Abandon, func(w *Writer) { _ = w.Close() }} {
		w := created(io.Discard)
		must(w.Write([]byte("text")))
		if end(w); !isZero(w.encoder.memory) || !bytes.Equal(w.held[:cap(w.held)], make([]byte, cap(w.held))) {
			t.Error("a writer's key is left")
		}
		if _, err := w.Write([]byte("x")); err == nil {
			t.Error("it is written on")
		}
	}
}

func isZero(m memory) bool {
	for _, it := range m {
		if it != 0 {
			return false
		}
	}
	return true
}

// counting counts what is read of it.
type counting struct {
	*bytes.Reader
	read int
}

func (c *counting) Read(room []byte) (int, error) {
	n, err := c.Reader.Read(room)
	c.read += n
	return n, err
}

// A source that can seek is read at random without being asked: each place costs a chunk or two, and the text is right there.
func TestSeek(t *testing.T) {
	for _, n := range append(lengths, 3_000_000) {
		text := textOf(n)
		src := &counting{Reader: bytes.NewReader(append([]byte("before it"), sealed(text)...))}
		must(src.Seek(9, io.SeekStart))
		r := open(src)
		random := rand.New(rand.NewSource(int64(n)))
		for turn := 0; turn < 60; turn++ {
			at, size := random.Intn(n+1), random.Intn(100_000)
			whence, offset := io.SeekStart, int64(at)
			switch turn % 3 {
			case 1:
				whence, offset = io.SeekEnd, int64(at-n)
			case 2:
				whence, offset = io.SeekCurrent, int64(at)-must(r.Seek(0, io.SeekCurrent))
			}
			src.read = 0
			if got, err := r.Seek(offset, whence); got != int64(at) || err != nil {
				t.Fatal(n, at, whence, got, err)
			}
			want := text[at:least(n, at+size)]
			got := make([]byte, size)
			count, err := io.ReadFull(r, got)
			if !bytes.Equal(got[:count], want) || (err == nil) != (count == size) || err != nil && err != io.EOF && err != io.ErrUnexpectedEOF {
				t.Fatal(n, at, size, count, err)
			}
			if place := must(r.Seek(0, io.SeekCurrent)); place != int64(at+count) {
				t.Fatal(n, at, place)
			}
			if src.read > size+4*65_552 {
				t.Fatal(n, "bytes, at", at, "read", src.read, "of", size)
			}
		}
	}
}

// One member of an archive, through the Reader that Decrypt gives of a file, costs little more than it.
func TestZip(t *testing.T) {
	var plain bytes.Buffer
	archive := zip.NewWriter(&plain)
	for _, name := range []string{"a", "b", "c"} {
		must(must(archive.CreateHeader(&zip.FileHeader{Name: name})).Write(textOf(1_000_000)))
	}
	well(archive.Close())
	name := t.TempDir() + "/archive.zip.age"
	well(os.WriteFile(name, sealed(plain.Bytes()), 0o600))
	file := must(os.Open(name))
	defer file.Close()
	r := must(Decrypt(file, pw()))
	size := must(r.Seek(0, io.SeekEnd))
	for _, src := range []io.ReaderAt{atOf{r}, must(OpenAt(file, must(file.Stat()).Size(), pw()))} {
		members := must(zip.NewReader(src, size)).File
		if got, err := io.ReadAll(must(members[1].Open())); err != nil || !bytes.Equal(got, textOf(1_000_000)) {
			t.Error(len(got), err)
		}
	}
}

// atOf is a seeker as an io.ReaderAt, for one goroutine.
type atOf struct{ io.ReadSeeker }

func (a atOf) ReadAt(room []byte, at int64) (int, error) {
	if _, err := a.Seek(at, io.SeekStart); err != nil {
		return 0, err
	}
	n, err := io.ReadFull(a, room)
	if err == io.ErrUnexpectedEOF {
		err = io.EOF
	}
	return n, err
}

// A place beyond the end of a whole text is the end, and that of a text of full chunks can be sought; of a cut one it is a fault.
func TestSeekToTheEnd(t *testing.T) {
	for _, n := range lengths {
		text := textOf(n)
		data := sealed(text)
		for _, at := range []int64{int64(n), int64(n) + 1, 253_138, 284_780, 1 << 40} {
			r := open(bytes.NewReader(data))
			if at < int64(n) {
				continue
			}
			if got, err := r.Seek(at, io.SeekStart); got != at || err != nil {
				t.Error(n, at, got, err)
			}
			if got, err := r.Read(make([]byte, 9)); got != 0 || err != io.EOF {
				t.Error(n, at, got, err)
			}
		}
		r := open(bytes.NewReader(data[:len(data)-1]))
		if _, err := r.Seek(0, io.SeekEnd); !errors.Is(err, ErrNotWhole) {
			t.Error(n, "cut", err)
		}
		if at := must(r.Seek(0, io.SeekCurrent)); at != 0 {
			t.Error(n, "cut, at", at)
		}
		got := make([]byte, 9)
		if count, err := io.ReadFull(r, got); (err == nil) != (n > 65_536) || errors.Is(err, io.EOF) || !bytes.Equal(got[:count], text[:count]) {
			t.Error(n, "cut, after a Seek that failed", err)
		}
		if n > 65_536 { // what comes before the damage is still there
			must(r.Seek(5, io.SeekStart))
			got := make([]byte, 100)
			if _, err := io.ReadFull(r, got); err != nil || !bytes.Equal(got, text[5:105]) {
				t.Error(n, err)
			}
		}
	}
}

// Refused: to seek what can't, to nowhere, and before the beginning. The place stays.
func TestSeeksThatFail(t *testing.T) {
	data := sealed(textOf(1000))
	r := open(hidden{bytes.NewReader(data)})
	must(r.Read(make([]byte, 10)))
	for _, whence := range []int{io.SeekStart, io.SeekCurrent, io.SeekEnd} {
		if at, err := r.Seek(1, whence); at != 10 || err != errSeek {
			t.Error(whence, at, err)
		}
	}
	if at, err := r.Seek(0, io.SeekCurrent); at != 10 || err != nil {
		t.Error(at, err)
	}
	r = open(bytes.NewReader(data))
	must(r.Read(make([]byte, 10)))
	for _, it := range []struct {
		offset int64
		whence int
	}{{-1, io.SeekStart}, {-11, io.SeekCurrent}, {-1001, io.SeekEnd}, {5, 9}} {
		if at, err := r.Seek(it.offset, it.whence); at != 10 || err == nil {
			t.Error(it, at, err)
		}
	}
	got := make([]byte, 10)
	if _, err := io.ReadFull(r, got); err != nil || !bytes.Equal(got, textOf(1000)[10:20]) {
		t.Error("it doesn't go on:", err)
	}
}

// A source whose Seek fails: no byte comes from another place.
func TestSourceThatSeeksBadly(t *testing.T) {
	src := &badSeeker{Reader: bytes.NewReader(sealed(textOf(200_000)))}
	r := open(src)
	must(r.Read(make([]byte, 10)))
	src.fails = true
	if _, err := r.Seek(100_000, io.SeekStart); err != errFull {
		t.Error(err)
	}
	if n, err := r.Read(make([]byte, 10)); n != 0 || err != errFull {
		t.Error(n, err)
	}
	src.fails = false
	must(r.Seek(100_000, io.SeekStart))
	got := make([]byte, 10)
	if _, err := io.ReadFull(r, got); err != nil || !bytes.Equal(got, textOf(200_000)[100_000:100_010]) {
		t.Error(err)
	}
}

type badSeeker struct {
	*bytes.Reader
	fails bool
}

func (b *badSeeker) Seek(offset int64, whence int) (int64, error) {
	if b.fails {
		return 0, errFull
	}
	return b.Reader.Seek(offset, whence)
}

// A copy of a Reader is refused: two would share what is held, and give a text with gaps.
func TestCopiedReader(t *testing.T) {
	text := textOf(200_000)
	r := open(bytes.NewReader(sealed(text)))
	other := *r
	for _, err := range []error{second(other.Read(make([]byte, 9))), second(other.WriteTo(io.Discard)), second(other.Seek(0, io.SeekStart))} {
		if err != errCopied {
			t.Error(err)
		}
	}
	if got, err := io.ReadAll(r); err != nil || !bytes.Equal(got, text) {
		t.Error(err)
	}
}

// records reads blocks, the last of which may be short, by the loop that is usual in Go, and says how many bytes they had.
func records(text io.Reader) (int, error) {
	all, block := 0, make([]byte, 1_000)
	for {
		n, err := io.ReadFull(text, block)
		all += n
		if errors.Is(err, io.EOF) || errors.Is(err, io.ErrUnexpectedEOF) {
			return all, nil
		}
		if err != nil {
			return all, err
		}
	}
}

// A file that is cut anywhere never looks as if its records ended there: neither one that is read from its beginning, nor one that became
// shorter after it was opened at any place.
func TestCutsAreNoEnds(t *testing.T) {
	text := textOf(200_000)
	data := sealed(text)
	if n, err := records(open(bytes.NewReader(data))); n != len(text) || err != nil {
		t.Error(n, err)
	}
	begin, truncated := payloadOf(data, len(text)), 0
	for cut := begin; cut < len(data); cut++ {
		if at := (cut - begin) % 65_552; at > 40 && at < 65_500 && at%997 != 0 {
			continue
		}
		_, err := records(open(bytes.NewReader(data[:cut])))
		if err == nil || errors.Is(err, io.ErrUnexpectedEOF) || !errors.Is(err, ErrNotWhole) {
			t.Error("cut at", cut, err)
		}
		if errors.Is(err, ErrTruncated) {
			truncated++
		}
		under := &shrinking{data}
		file := must(OpenAt(under, int64(len(data)), pw()))
		under.data = data[:cut]
		if _, err := records(file); err == nil || errors.Is(err, io.ErrUnexpectedEOF) {
			t.Error("became shorter,", cut, err)
		}
	}
	if truncated != 4*16 { // before each chunk, and in its first 15 bytes
		t.Error(truncated)
	}
	for cut := 0; cut < begin; cut++ {
		if _, err := Decrypt(bytes.NewReader(data[:cut]), pw()); !errors.Is(err, ErrTruncated) || errors.Is(err, io.ErrUnexpectedEOF) {
			t.Error("a header that is cut at", cut, err)
		}
	}
}

// cutBody is what a response is whose body was cut off.
type cutBody struct{ data *bytes.Reader }

func (c cutBody) Read(room []byte) (int, error) { return c.cut(c.data.Read(room)) }

func (c cutBody) ReadAt(room []byte, at int64) (int, error) { return c.cut(c.data.ReadAt(room, at)) }

func (c cutBody) cut(n int, err error) (int, error) {
	if err == io.EOF {
		err = io.ErrUnexpectedEOF
	}
	return n, err
}

// Nor does one whose source says of itself that it was cut.
func TestSourcesThatAreCut(t *testing.T) {
	data := sealed(textOf(200_000))
	for _, cut := range []int{60, len(data) - 70_000, len(data) - 1} {
		reader, err := Decrypt(cutBody{bytes.NewReader(data[:cut])}, pw())
		if err == nil {
			_, err = records(reader)
		}
		if !errors.Is(err, ErrTruncated) || errors.Is(err, io.ErrUnexpectedEOF) || numberOf(err) != 0 {
			t.Error(cut, err)
		}
		_, err = OpenAt(cutBody{bytes.NewReader(data[:cut])}, int64(len(data)), pw())
		if !errors.Is(err, ErrTruncated) || errors.Is(err, io.ErrUnexpectedEOF) {
			t.Error("at any place,", cut, err)
		}
	}
}

// nearlyFull is a disk that has room for so many bytes.
type nearlyFull struct{ room int }

var errFull = errors.New("no space left")

func (f *nearlyFull) Write(text []byte) (int, error) {
	n := least(len(text), f.room)
	f.room -= n
	if n < len(text) {
		return n, errFull
	}
	return n, nil
}

// A source may give bytes and an error that doesn't come again, as io.TeeReader does if the copy can't be written on: it gives a part of
// what it read. So what follows is missing, and the error has to be told.
func TestErrorsThatComeOnce(t *testing.T) {
	data := sealed(textOf(20_000))
	for _, room := range []int{1, 50, 200, len(data) - 1} {
		reader, err := Decrypt(io.TeeReader(bytes.NewReader(data), &nearlyFull{room}), pw())
		if err == nil {
			_, err = records(reader)
		}
		if !errors.Is(err, errFull) {
			t.Error(room, err)
		}
	}
}

// hungUp is a file whose server hangs up from a place on: net/http's error wraps io.EOF.
type hungUp struct {
	*bytes.Reader
	from int64
}

func (h *hungUp) ReadAt(room []byte, at int64) (int, error) {
	if at+int64(len(room)) > h.from {
		return 0, &url.Error{Op: "Get", URL: "https://host/file", Err: io.EOF}
	}
	return h.Reader.ReadAt(room, at)
}

// Nor does one whose source wraps io.EOF.
func TestSourcesThatHangUp(t *testing.T) {
	data := sealed(textOf(200_000))
	size, from := int64(len(data)), int64(len(data)-100_000)
	for _, from := range []int64{10, from} {
		reader, err := Decrypt(io.NewSectionReader(&hungUp{bytes.NewReader(data), from}, 0, size), pw())
		if err == nil {
			_, err = records(reader)
		}
		if !errors.Is(err, ErrTruncated) || errors.Is(err, io.EOF) {
			t.Error("a Reader:", from, err)
		}
		var said *url.Error // by which a program may try again
		if !errors.As(err, &said) || said.Op != "Get" {
			t.Error("what the source said:", from, err)
		}
	}
	under := &hungUp{bytes.NewReader(data), size}
	file := must(OpenAt(under, size, pw()))
	under.from = from
	if n, err := records(file); !errors.Is(err, ErrTruncated) || errors.Is(err, io.EOF) {
		t.Error("a File:", n, err)
	}
}

// A source that gives nothing for ever is an error, in the header and in the payload; and so is a count that no Read may return.
func TestNoProgress(t *testing.T) {
	data := sealed(textOf(70000))
	for _, end := range []int{0, 30, len(data) - 100} {
		for source, want := range map[miscounts]error{0: io.ErrNoProgress, -1: errRead, 1 << 20: errRead} {
			r, err := Decrypt(io.MultiReader(bytes.NewReader(data[:end]), source), pw())
			if err == nil {
				_, err = io.ReadAll(r)
			}
			if err != want {
				t.Error(end, source, err)
			}
		}
	}
}

// What a Reader couldn't write stays in it, and a sink that takes less than it is given, and says nothing, is an error.
func TestBriefWrites(t *testing.T) {
	text := textOf(100_000)
	r := open(bytes.NewReader(sealed(text)))
	var rest bytes.Buffer
	if n, err := r.WriteTo(brief{}); n != 65_535 || err != io.ErrShortWrite {
		t.Error(n, err)
	}
	if _, err := r.WriteTo(&rest); err != nil || !bytes.Equal(rest.Bytes(), text[65_535:]) {
		t.Error("the rest:", rest.Len(), err)
	}
	for _, n := range []miscounts{-1, 1 << 20} {
		if _, err := open(bytes.NewReader(sealed(text))).WriteTo(n); err != errWrite {
			t.Error(n, err)
		}
	}
}

// calls counts those of Write.
type calls int

func (c *calls) Write(text []byte) (int, error) {
	*c++
	return len(text), nil
}

// Write isn't called before some text was authenticated: net/http's sends the status at the first call.
func TestNothingToWrite(t *testing.T) {
	whole := sealed(textOf(100_000))
	for name, data := range map[string][]byte{"chunk 0 is damaged": flipped(whole, payloadOf(whole, 100_000)), "an empty text": sealed(nil)} {
		var n calls
		io.Copy(&n, open(bytes.NewReader(data)))
		io.Copy(&n, opened(sealed(nil)))
		if n != 0 {
			t.Errorf("%s: %d calls of Write", name, n)
		}
	}
}

// What an open reader holds: a block here, one in the library, the text of one, and little more.
func TestMemoryOfReaders(t *testing.T) {
	data, readers := sealed(textOf(200_000)), make([]*Reader, 50)
	held := func() uint64 {
		var stats runtime.MemStats
		runtime.GC()
		runtime.ReadMemStats(&stats)
		return stats.HeapAlloc
	}
	before := held()
	for i := range readers {
		readers[i] = open(bytes.NewReader(data))
		must(readers[i].Read(make([]byte, 100)))
	}
	if each := (held() - before) / uint64(len(readers)); each > 220<<10 {
		t.Error("a reader holds", each, "bytes")
	}
	runtime.KeepAlive(readers)
}
