package agefile

import (
	"bytes"
	"errors"
	"io"
	"reflect"
	"strings"
	"testing"
)

// A passphrase file that age 1.1.1 made.
func TestFiles(t *testing.T) {
	reads(t, bytes.NewReader(ofAge(t, "passphrase.age")), Passphrase([]byte("correct horse")), "hello, passphrase\n")
}

// The default is work 18, and 22 at most.
func TestDefaults(t *testing.T) {
	data := sealed([]byte("text"), Passphrase([]byte("pw")))
	if h := must(Inspect(bytes.NewReader(data))); h.Work != 18 {
		t.Error(h.Work)
	}
	reads(t, bytes.NewReader(data), Passphrase([]byte("pw")), "text")
	p := Passphrase([]byte("pw"))
	for _, most := range []int{17, 18} {
		p.MaxWork = most
		if _, err := whole(data, p); errors.Is(err, ErrWorkTooHigh) != (most == 17) || err != nil && most == 18 {
			t.Error(most, err)
		}
	}
}

// A passphrase is copied: the caller may overwrite it, as careful people do.
func TestPassphraseIsACopy(t *testing.T) {
	words := []byte("pw")
	p := Passphrase(words)
	p.Work = 1
	data := sealed([]byte("text"), p)
	copy(words, "xx")
	reads(t, bytes.NewReader(data), p, "text")
	reads(t, bytes.NewReader(sealed([]byte("more"), p)), pw(), "more")
}

// Nobody can change what a File, a Reader or a Writer reads and writes: they show no field.
func TestFieldsAreHidden(t *testing.T) {
	for _, it := range []any{File{}, Reader{}, Writer{}} {
		for _, field := range reflect.VisibleFields(reflect.TypeOf(it)) {
			if field.IsExported() {
				t.Errorf("%T has %s", it, field.Name)
			}
		}
	}
}

// A file for two recipients, which each one's identity opens, and none that has another kind of stanza.
func TestRecipients(t *testing.T) {
	one, two, other := &keyHolder{kind: "one"}, &keyHolder{kind: "two"}, &keyHolder{kind: "other"}
	data := sealed([]byte("text"), one, two)
	if one.wraps != 1 || two.wraps != 1 || len(one.key) != 16 || !bytes.Equal(one.key, two.key) {
		t.Error(one, two)
	}
	for _, by := range [][]Identity{{one}, {two}, {other, two}, {pw(), other, one, two}} {
		for _, call := range []func([]byte, ...Identity) ([]byte, error){whole, wholeAt} {
			if got, err := call(data, by...); string(got) != "text" {
				t.Errorf("%q, %v", got, err)
			}
		}
	}
	if _, err := whole(data, other, pw()); !errors.Is(err, ErrWrongKey) {
		t.Error(err)
	}
	again := sealed(nil, one)
	if bytes.Equal(one.key, two.key) || bytes.Equal(again[:100], data[:100]) {
		t.Error("one file key for two files")
	}
}

// Identities that can't tell end the search, unless they say that the key isn't theirs.
func TestIdentitiesThatFail(t *testing.T) {
	one := &keyHolder{kind: "one"}
	data := sealed([]byte("text"), one)
	if _, err := whole(data, failingKey{errFull}, one); err != errFull {
		t.Error(err)
	}
	for _, end := range []error{io.ErrUnexpectedEOF, &wrapping{io.EOF}} {
		_, err := whole(data, failingKey{end})
		if err == nil || errors.Is(err, io.EOF) || errors.Is(err, io.ErrUnexpectedEOF) || errors.Is(err, ErrNotWhole) {
			t.Error("an end:", err)
		}
	}
	wrapped := &wrapping{ErrWrongKey}
	if got, err := whole(data, failingKey{wrapped}, one); string(got) != "text" {
		t.Error(err)
	}
	if _, err := whole(data, failingKey{wrapped}); err != wrapped {
		t.Error(err)
	}
	for _, n := range []int{0, 15, 17, 32} {
		_, err := whole(data, &keyHolder{kind: "one", key: make([]byte, n)}, one)
		if numberOf(err) != 255 || !strings.Contains(err.Error(), "16 bytes") {
			t.Error(n, err)
		}
	}
}

type wrapping struct{ err error }

func (w *wrapping) Error() string { return "a wrapper of " + w.err.Error() }
func (w *wrapping) Unwrap() error { return w.err }

type failingKey struct{ err error }

func (f failingKey) Wrap([]byte) ([]Stanza, error)   { return nil, f.err }
func (f failingKey) Unwrap([]Stanza) ([]byte, error) { return nil, f.err }

// wiping is a recipient that overwrites the file key, as careful ones do.
type wiping struct{ keyHolder }

func (w *wiping) Wrap(fileKey []byte) ([]Stanza, error) {
	defer wipe(fileKey)
	return w.keyHolder.Wrap(fileKey)
}

// The file is sealed under the key that each recipient was given, whatever one does with it.
func TestRecipientsThatWipe(t *testing.T) {
	one, two := &wiping{keyHolder{kind: "one"}}, &keyHolder{kind: "two"}
	data := sealed([]byte("text"), one, two)
	if bytes.Equal(two.key, make([]byte, 16)) {
		t.Error("a key of zeros")
	}
	for _, it := range []Identity{one, two} {
		reads(t, bytes.NewReader(data), it, "text")
	}
}

// given is a recipient that gives these stanzas.
type given []Stanza

func (g given) Wrap([]byte) ([]Stanza, error) { return g, nil }

// A header holds what a recipient gives, and nothing that it could be taken for.
func TestStanzas(t *testing.T) {
	all := given{}
	for _, n := range []int{0, 1, 2, 47, 48, 49, 95, 96, 97, 1000} {
		all = append(all, Stanza{Type: "kind", Args: []string{"!", "~", strings.Repeat("a", n+1)}, Body: textOf(n)})
	}
	all = append(all, Stanza{Type: "bare", Args: []string{}, Body: []byte{}})
	h := must(Inspect(bytes.NewReader(sealed(nil, all))))
	for i, it := range h.Stanzas {
		if it.Type != all[i].Type || strings.Join(it.Args, " ") != strings.Join(all[i].Args, " ") || !bytes.Equal(it.Body, all[i].Body) {
			t.Errorf("%+v, not %+v", it, all[i])
		}
	}
	if len(h.Stanzas) != len(all) {
		t.Error(len(h.Stanzas))
	}
	for _, it := range []Stanza{
		{Type: ""}, {Type: "a b"}, {Type: "a\n"}, {Type: "a", Args: []string{""}}, {Type: "a", Args: []string{"b c"}}, {Type: "\x7f"},
		{Type: "a", Args: []string{"b\nQQ\n-> X25519 c"}}, {Type: "ä"}, {Type: "a", Args: []string{"\xff"}},
	} {
		if _, err := Encrypt(io.Discard, given{it}); numberOf(err) != 255 {
			t.Errorf("%+v: %v", it, err)
		}
	}
	for _, to := range [][]Recipient{{given{}}, {given{}, all}, {all, given{}}} { // nobody could open it for that one
		if _, err := Encrypt(io.Discard, to...); numberOf(err) != 255 {
			t.Error("no stanza:", err)
		}
	}
	if _, err := Encrypt(io.Discard, failingKey{errFull}); err != errFull {
		t.Error(err)
	}
	long := given{{Type: "a", Body: make([]byte, 1<<20)}}
	if _, err := Encrypt(io.Discard, long); err == nil {
		t.Error("a header that is too long")
	}
}

// A passphrase is a file's only recipient, and wraps no key for anybody else.
func TestPassphraseIsAlone(t *testing.T) {
	one := &keyHolder{kind: "one"}
	for _, to := range [][]Recipient{{pw(), one}, {one, pw()}, {pw(), pw()}, {one, given{{Type: "scrypt", Args: []string{"a", "1"}}}}, {struct{ *PassphraseKey }{pw()}}} {
		if w, err := Encrypt(io.Discard, to...); w != nil || err == nil {
			t.Error(len(to), err)
		}
	}
	if one.wraps > 1 {
		t.Error("it was asked")
	}
	if _, err := whole(sealed(nil), struct{ *PassphraseKey }{pw()}); err != errItself {
		t.Error(err)
	}
}

// A passphrase's stanza beside another one is refused whoever asks, and Inspect shows it.
func TestScryptBesideOthers(t *testing.T) {
	version, rest, _ := bytes.Cut(sealed(nil), []byte("\n"))
	data := bytes.Join([][]byte{version, []byte("-> x\n\n" + string(rest))}, []byte("\n"))
	asked := &keyHolder{kind: "x", key: make([]byte, 16)}
	for _, by := range []Identity{pw(), asked, &keyHolder{kind: "other"}} {
		if _, err := whole(data, by); numberOf(err) != 9 {
			t.Error(err)
		}
	}
	if h := must(Inspect(bytes.NewReader(data))); asked.asks != 0 || h.Work != 0 || len(h.Stanzas) != 2 {
		t.Error(h, asked.asks)
	}
}

func TestInspect(t *testing.T) {
	h := must(Inspect(bytes.NewReader(sealed([]byte("a text")))))
	if s := h.Stanzas[0]; h.Work != 1 || len(h.Stanzas) != 1 || s.Type != "scrypt" || len(s.Args) != 2 || s.Args[1] != "1" || len(s.Body) != 32 {
		t.Errorf("%+v", h)
	}
	of := func(count int) string {
		return "age-encryption.org/v1\n" + strings.Repeat("-> a bc !~\nAQID\n", count) + "--- " + strings.Repeat("A", 43) + "\n"
	}
	many := of(300)
	h = must(Inspect(strings.NewReader(many)))
	if s := h.Stanzas[299]; h.Len != len(many) || h.Work != 0 || len(h.Stanzas) != 300 || s.Type != "a" ||
		strings.Join(s.Args, ",") != "bc,!~" || string(s.Body) != "\x01\x02\x03" {
		t.Errorf("%d %d %d %+v", h.Len, h.Work, len(h.Stanzas), s)
	}
	if h := must(Inspect(strings.NewReader(of(60_000)))); len(h.Stanzas) != 60_000 {
		t.Error(len(h.Stanzas))
	}
	for data, number := range map[string]int{
		many[:len(many)-1]: 254, "": 254, of(0): 6, "not age\n": 1, "-----BEGIN AGE ENCRYPTED FILE-----\n": 2, strings.Repeat("a", 1<<21): 7,
	} {
		if h, err := Inspect(strings.NewReader(data)); h != nil || numberOf(err) != number {
			t.Error(number, err)
		}
		if _, err := whole([]byte(data), pw()); numberOf(err) != number {
			t.Error("by a passphrase:", number, err)
		}
	}
}
