package agefile

import (
	"bytes"
	"errors"
	"fmt"
	"io"
	"strings"
	"testing"
)

func TestKinds(t *testing.T) {
	data := sealed(textOf(70000))
	full := sealed(textOf(65536))
	begin := len(full) - 65552
	weak := pw()
	weak.MaxWork = 1
	strong := pw()
	strong.Work = 2
	for _, it := range []struct {
		what string
		data []byte
		key  Identity
		kind error
	}{
		{"another passphrase", data, low("other"), ErrWrongKey},
		{"another kind of key", data, &keyHolder{kind: "other"}, ErrWrongKey},
		{"another file key", data, &keyHolder{kind: "scrypt", key: make([]byte, 16)}, ErrNotWhole},
		{"a passphrase, and none opens it", sealed(nil, &keyHolder{kind: "own"}), pw(), ErrWrongKey},
		{"a cut header", data[:50], pw(), ErrTruncated},
		{"no payload", data[:begin], pw(), ErrTruncated},
		{"a part of the nonce", data[:begin-5], pw(), ErrTruncated},
		{"a missing chunk", data[:begin+65552], pw(), ErrTruncated},
		{"the first bytes of a chunk", data[:begin+65552+9], pw(), ErrTruncated},
		{"a changed byte", flipped(data, len(data)-1), pw(), ErrNotWhole},
		{"bytes after the end", append(append([]byte{}, full...), 0), pw(), ErrNotWhole},
		{"no age file", []byte("x\n"), pw(), ErrNotWhole},
		{"zeros", append(make([]byte, 100), data[100:]...), pw(), ErrNotWhole},
		{"a work factor above the most", sealed(nil, strong), weak, ErrWorkTooHigh},
		{"no passphrase", data, Passphrase(nil), nil},
		{"no key", data, &keyHolder{kind: "scrypt"}, nil},
	} {
		for at, call := range []func([]byte, ...Identity) ([]byte, error){whole, wholeAt} {
			_, err := call(it.data, it.key)
			var fault *Fault
			if !errors.As(err, &fault) && it.kind != ErrWrongKey || err == nil {
				t.Error(it.what, at, err)
			}
			for _, kind := range []error{ErrWrongKey, ErrTruncated, ErrNotWhole, ErrWorkTooHigh, ErrMemory} {
				wanted := kind == it.kind || kind == ErrNotWhole && it.kind == ErrTruncated
				// (where it is read at any place, bytes after the end look like a cut chunk)
				if errors.Is(err, kind) != wanted && !(at == 1 && it.what == "bytes after the end") {
					t.Errorf("%s: %v is %v: %v", it.what, err, kind, errors.Is(err, kind))
				}
			}
		}
	}
}

// One bit changed at each place of a file: 1,528 cases, each of them a file that isn't whole, or what another key gives.
func TestEachBit(t *testing.T) {
	data := sealed([]byte("ten bytes!"))
	cases, kinds := 0, map[error]int{}
	for at := 0; at < 8*len(data); at++ {
		held := append([]byte(nil), data...)
		held[at/8] ^= 1 << (at % 8)
		for _, call := range []func([]byte, ...Identity) ([]byte, error){whole, wholeAt} {
			_, err := call(held, pw())
			isKey, isWhole := errors.Is(err, ErrWrongKey), !errors.Is(err, ErrNotWhole)
			if isKey != isWhole {
				t.Errorf("bit %d: %v", at, err)
			}
			if isKey {
				kinds[ErrWrongKey]++
			}
		}
		cases++
	}
	if cases != 1528 || kinds[ErrWrongKey] == 0 || kinds[ErrWrongKey] > cases {
		t.Error(cases, kinds)
	}
}

// What it means comes first, as the library says it, and then the number and the name; or which argument is out of range.
func TestMessages(t *testing.T) {
	data := sealed(textOf(200000))
	pass := func(n, work, most int) *PassphraseKey {
		p := Passphrase(make([]byte, n))
		p.Work, p.MaxWork = work, most
		return p
	}
	for _, it := range []struct {
		data []byte
		key  *PassphraseKey
		text string
	}{
		{data, low("other"), "agefile: the passphrase or key doesn't open the file (13 WrongKey)"},
		{data[:len(data)-5], pw(), "agefile: the file is damaged or was cut here, or something was appended (17 ChunkDamaged, chunk 3)"},
		{data[:50], pw(), "agefile: the file ends in its header or right after it, or isn't an age file (254 HeaderOrNonceCut)"},
		{append(sealed(textOf(65536)), 0), pw(), "agefile: something was appended to the file (21 Trailing)"},
		{data, pass(0, 0, 0), "agefile: the passphrase must have 1 to 65,536 bytes (255 Misused)"},
		{data, pass(65537, 0, 0), "agefile: the passphrase must have 1 to 65,536 bytes (255 Misused)"},
		{data, pass(65536, 0, 23), "agefile: MaxWork must be 0 to 22 (255 Misused)"},
		{data, pass(1, 0, -1), "agefile: MaxWork must be 0 to 22 (255 Misused)"},
		{data, pass(1, 0, 1<<32), "agefile: MaxWork must be 0 to 22 (255 Misused)"},
		{data, pass(1, -1, 0), "agefile: Work must be 0 to 22 (255 Misused)"},
	} {
		if _, err := whole(it.data, it.key); err == nil || err.Error() != it.text {
			t.Errorf("%v, not %s", err, it.text)
		}
	}
	for _, it := range []*PassphraseKey{pass(0, 1, 0), pass(1, 23, 0), pass(1, 1<<32, 0), {}} {
		var fault *Fault
		if _, err := Encrypt(io.Discard, it); !errors.As(err, &fault) || fault.Name() != "Misused" || fault.Argument == "" {
			t.Error(err)
		}
	}
	if _, err := whole(data); err == nil || err.Error() != "agefile: there must be an identity (255 Misused)" {
		t.Error("by nothing:", err)
	}
}

// No verb prints a key or a text.
func TestPrinted(t *testing.T) {
	data := sealed(textOf(1000))
	reader, writer := open(bytes.NewReader(data)), created(io.Discard)
	must(reader.Read(make([]byte, 10)))
	must(writer.Write([]byte("secret")))
	for _, it := range []any{reader, *reader, opened(data), writer, *writer, pw(), *pw()} {
		for _, verb := range []string{"%v", "%+v", "%#v", "%s", "%d", "%x", "%q"} {
			if said := fmt.Sprintf(verb, it); len(said) > 21 || !strings.HasPrefix(said, "agefile.") {
				t.Errorf("%s of a %T: %.60s", verb, it, said)
			}
		}
	}
	writer.Abandon()
}

// What was never opened, or can't be, is an error, and no end.
func TestNothing(t *testing.T) {
	var file File
	var reader Reader
	var writer Writer
	room := make([]byte, 1)
	for what, err := range map[string]error{
		"File.Read": second(file.Read(room)), "File.ReadAt": second(file.ReadAt(room, 0)), "File.Seek": second(file.Seek(0, io.SeekStart)),
		"Reader.Read": second(reader.Read(room)), "Reader.WriteTo": second(reader.WriteTo(io.Discard)), "Reader.Seek": second(reader.Seek(0, io.SeekCurrent)),
		"Writer.Write": second(writer.Write(room)), "Writer.Close": writer.Close(),
	} {
		if err != errNotOpen {
			t.Error(what, err)
		}
	}
	if n := file.Size(); n != 0 {
		t.Error(n)
	}
	writer.Abandon()
	for what, err := range map[string]error{
		"Decrypt": second(Decrypt(nil, pw())), "OpenAt": second(OpenAt(nil, 5, pw())), "Encrypt": second(Encrypt(nil, pw())),
		"Inspect": second(Inspect(nil)), "DecryptTo": second(DecryptTo(nil, bytes.NewReader(sealed(nil)), 5, 1, pw())),
		"a size": second(OpenAt(bytes.NewReader(nil), -1, pw())), "no recipient": second(Encrypt(io.Discard)),
	} {
		if err == nil || errors.Is(err, ErrNotWhole) {
			t.Error(what, err)
		}
	}
}
