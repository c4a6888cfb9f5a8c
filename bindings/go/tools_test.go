package agefile

import (
	"bytes"
	"errors"
	"io"
	"math/rand"
	"os"
	"testing"
)

var lengths = []int{0, 1, 65535, 65536, 65537, 131072, 200000}

func textOf(n int) []byte {
	text := make([]byte, n)
	rand.New(rand.NewSource(int64(n))).Read(text)
	return text
}

// well ends the tests at a call that fails, and may not.
func well(err error) {
	if err != nil {
		panic(err)
	}
}

// must is what such a call returns.
func must[T any](value T, err error) T {
	well(err)
	return value
}

func second[T any](_ T, err error) error { return err }

// low is a passphrase that costs next to nothing to write with.
func low(text string) *PassphraseKey {
	p := Passphrase([]byte(text))
	p.Work = 1
	return p
}

func pw() *PassphraseKey { return low("pw") }

func created(out io.Writer) *Writer { return must(Encrypt(out, pw())) }

func sealed(text []byte, to ...Recipient) []byte {
	if len(to) == 0 {
		to = append(to, pw())
	}
	var out bytes.Buffer
	w := must(Encrypt(&out, to...))
	must(w.Write(text))
	well(w.Close())
	return out.Bytes()
}

// payloadOf is where the payload of such a file begins.
func payloadOf(data []byte, text int) int {
	chunks := (text + 65535) / 65536
	if chunks == 0 {
		chunks = 1
	}
	return len(data) - text - 16*chunks
}

func flipped(data []byte, at ...int) []byte {
	held := append([]byte(nil), data...)
	for _, it := range at {
		held[it] ^= 1
	}
	return held
}

func open(file io.Reader) *Reader { return must(Decrypt(file, pw())) }

func opened(data []byte) *File { return must(OpenAt(bytes.NewReader(data), int64(len(data)), pw())) }

// whole is the text of a file, or its fault.
func whole(data []byte, by ...Identity) ([]byte, error) {
	r, err := Decrypt(bytes.NewReader(data), by...)
	if err != nil {
		return nil, err
	}
	return io.ReadAll(r)
}

// wholeAt is the same of a file that is open at any place.
func wholeAt(data []byte, by ...Identity) ([]byte, error) {
	f, err := OpenAt(bytes.NewReader(data), int64(len(data)), by...)
	if err != nil {
		return nil, err
	}
	return io.ReadAll(f)
}

// reads says if a file isn't opened by a key, or has another text.
func reads(t *testing.T, file io.Reader, key Identity, text string) {
	t.Helper()
	reader, err := Decrypt(file, key)
	if err != nil {
		t.Error(err)
	} else if got, err := io.ReadAll(reader); err != nil || string(got) != text {
		t.Errorf("%q, %v", got, err)
	}
}

// numberOf is the number of a fault, or 0.
func numberOf(err error) int {
	var fault *Fault
	if errors.As(err, &fault) {
		return fault.Number
	}
	return 0
}

// ofAge is a file that age 1.1.1 made.
func ofAge(t *testing.T, name string) []byte {
	t.Helper()
	data, err := os.ReadFile("../tests/age/" + name)
	if errors.Is(err, os.ErrNotExist) {
		t.Skip("this folder stands alone")
	}
	return must(data, err)
}

// hidden is a reader that can't seek.
type hidden struct{ io.Reader }

// keyHolder wraps and unwraps by keeping the key, and counts how often it is asked.
type keyHolder struct {
	kind        string
	key         []byte
	wraps, asks int
}

func (k *keyHolder) Wrap(fileKey []byte) ([]Stanza, error) {
	k.wraps++
	k.key = append([]byte(nil), fileKey...)
	return []Stanza{{Type: k.kind, Args: []string{"an", "argument"}, Body: []byte("a body")}}, nil
}

func (k *keyHolder) Unwrap(stanzas []Stanza) ([]byte, error) {
	k.asks++
	for _, it := range stanzas {
		if it.Type == k.kind {
			return k.key, nil
		}
	}
	return nil, ErrWrongKey
}

// A sink that fails once it has got this many bytes.
type failingSink int

func (s *failingSink) Write(p []byte) (int, error) {
	if *s -= failingSink(len(p)); *s < 0 {
		return 0, io.ErrClosedPipe
	}
	return len(p), nil
}

// brief writes less than it is given, and says nothing.
type brief struct{}

func (brief) WriteAt(p []byte, at int64) (int, error) { return len(p) - 1, nil }

func (brief) Write(p []byte) (int, error) { return len(p) - 1, nil }

// miscounts is written to, and read, by calls that return this count.
type miscounts int

func (n miscounts) Read([]byte) (int, error)                 { return int(n), nil }
func (n miscounts) Write([]byte) (int, error)                { return int(n), nil }
func (n miscounts) WriteAt([]byte, int64) (int, error)       { return int(n), nil }
func (n miscounts) ReadAt(room []byte, _ int64) (int, error) { return int(n), nil }

// shrinking is a file that may become shorter.
type shrinking struct{ data []byte }

func (s *shrinking) ReadAt(into []byte, off int64) (int, error) {
	return bytes.NewReader(s.data).ReadAt(into, off)
}
