package agekeys_test

import (
	"bytes"
	"crypto/ed25519"
	"crypto/rand"
	"crypto/rsa"
	"errors"
	"fmt"
	"io"
	"strings"
	"testing"

	"filippo.io/age"
	"filippo.io/age/agessh"
	"golang.org/x/crypto/ssh"
	"kudebafon.example/agefile"
	"kudebafon.example/agefile/agekeys"
)

func well(t *testing.T, err error) {
	t.Helper()
	if err != nil {
		t.Fatal(err)
	}
}

// A pair is a key of age.
type pair struct {
	name string
	to   age.Recipient
	by   age.Identity
}

// pairs are keys of each kind.
func pairs(t *testing.T) []pair {
	x25519, err := age.GenerateX25519Identity()
	well(t, err)
	public, secret, err := ed25519.GenerateKey(rand.Reader)
	well(t, err)
	line, err := ssh.NewPublicKey(public)
	well(t, err)
	toEd, err := agessh.NewEd25519Recipient(line)
	well(t, err)
	byEd, err := agessh.NewEd25519Identity(secret)
	well(t, err)
	long, err := rsa.GenerateKey(rand.Reader, 2048)
	well(t, err)
	line, err = ssh.NewPublicKey(&long.PublicKey)
	well(t, err)
	toRSA, err := agessh.NewRSARecipient(line)
	well(t, err)
	byRSA, err := agessh.NewRSAIdentity(long)
	well(t, err)
	toWord, err := age.NewScryptRecipient("pw")
	well(t, err)
	toWord.SetWorkFactor(1)
	byWord, err := age.NewScryptIdentity("pw")
	well(t, err)
	return []pair{{"X25519", x25519.Recipient(), x25519}, {"ssh-ed25519", toEd, byEd}, {"ssh-rsa", toRSA, byRSA}, {"scrypt", toWord, byWord}}
}

func sealed(t *testing.T, text string, to ...age.Recipient) []byte {
	t.Helper()
	var out bytes.Buffer
	w, err := agefile.Encrypt(&out, agekeys.Recipients(to...)...)
	well(t, err)
	_, err = io.WriteString(w, text)
	well(t, err)
	well(t, w.Close())
	return out.Bytes()
}

func opened(data []byte, by ...age.Identity) (string, error) {
	r, err := agefile.Decrypt(bytes.NewReader(data), agekeys.Identities(by...)...)
	if err != nil {
		return "", err
	}
	text, err := io.ReadAll(r)
	return string(text), err
}

// Files for each kind of key: from here to here, from here to age, and from age to here.
func TestKeys(t *testing.T) {
	text := strings.Repeat("a text\n", 20_000)
	for _, it := range pairs(t) {
		data := sealed(t, text, it.to)
		if got, err := opened(data, it.by); err != nil || got != text {
			t.Error(it.name, len(got), err)
		}
		theirs, err := age.Decrypt(bytes.NewReader(data), it.by)
		well(t, err)
		if got, err := io.ReadAll(theirs); err != nil || string(got) != text {
			t.Error(it.name, "in age:", len(got), err)
		}
		var out bytes.Buffer
		w, err := age.Encrypt(&out, it.to)
		well(t, err)
		_, err = io.WriteString(w, text)
		well(t, err)
		well(t, w.Close())
		if got, err := opened(out.Bytes(), it.by); err != nil || got != text {
			t.Error(it.name, "of age:", len(got), err)
		}
		data[len(data)-1] ^= 1
		if _, err := opened(data, it.by); !errors.Is(err, agefile.ErrNotWhole) {
			t.Error(it.name, "damaged:", err)
		}
	}
}

// A file for several keys is opened by each; other keys are wrong, and a header that was altered isn't whole.
func TestSeveral(t *testing.T) {
	all := pairs(t)[:3]
	data := sealed(t, "text", all[0].to, all[1].to, all[2].to)
	strangers := pairs(t)
	for i, it := range all {
		if got, err := opened(data, strangers[i].by, it.by); err != nil || got != "text" {
			t.Error(it.name, got, err)
		}
	}
	if _, err := opened(data, strangers[0].by, strangers[1].by, strangers[2].by); !errors.Is(err, agefile.ErrWrongKey) {
		t.Error(err)
	}
	altered := bytes.Replace(data, []byte("-> X25519"), []byte("-> X25518"), 1)
	if _, err := opened(altered, all[1].by); !errors.Is(err, agefile.ErrNotWhole) {
		t.Error(err)
	}
	if _, err := agefile.Encrypt(io.Discard, agekeys.Recipients(all[0].to, strangers[3].to)...); err == nil {
		t.Error("a passphrase beside another recipient")
	}
}

// failing is a key whose plugin fails.
type failing struct{}

func (failing) Wrap([]byte) ([]*age.Stanza, error)   { return nil, io.ErrClosedPipe }
func (failing) Unwrap([]*age.Stanza) ([]byte, error) { return nil, io.ErrClosedPipe }

func TestKeysThatFail(t *testing.T) {
	if _, err := agefile.Encrypt(io.Discard, agekeys.Recipients(failing{})...); err != io.ErrClosedPipe {
		t.Error(err)
	}
	if _, err := opened(sealed(t, "", pairs(t)[0].to), failing{}); err != io.ErrClosedPipe {
		t.Error(err)
	}
}

func Example() {
	identity, err := age.GenerateX25519Identity()
	if err != nil {
		panic(err)
	}
	var file bytes.Buffer
	w, err := agefile.Encrypt(&file, agekeys.Recipients(identity.Recipient())...)
	if err != nil {
		panic(err)
	}
	defer w.Abandon()
	io.WriteString(w, "hello")
	if err := w.Close(); err != nil {
		panic(err)
	}
	r, err := agefile.Decrypt(&file, agekeys.Identities(identity)...)
	if err != nil {
		panic(err)
	}
	text, err := io.ReadAll(r)
	fmt.Println(string(text), err)
	// Output: hello <nil>
}
