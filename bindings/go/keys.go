package agefile

import (
	"crypto/rand"
	"encoding/base64"
	"errors"
	"fmt"
	"io"
	"strings"
)

// A Stanza is what one recipient, or a passphrase, finds the file key in.
type Stanza struct {
	Type string   // as "X25519"
	Args []string // without the type
	Body []byte
}

// A Recipient wraps the file key of a new file in stanzas of its header. Those of filippo.io/age are, by the module agekeys.
type Recipient interface {
	Wrap(fileKey []byte) ([]Stanza, error)
}

// An Identity finds the file key, of 16 bytes, in the stanzas of a header. If none is its own, errors.Is finds ErrWrongKey in its error,
// and the next identity is asked. Whoever has the file key of a file has an Identity that returns it.
type Identity interface {
	Unwrap(stanzas []Stanza) (fileKey []byte, err error)
}

// A PassphraseKey is both a Recipient, which must be a file's only one, and an Identity. A passphrase has 1 to 65,536 bytes.
//
// A work factor N takes 2^N KiB of memory: 256 MiB for 18, and 4 GiB for 22. Lower MaxWork for files of strangers.
type PassphraseKey struct {
	Work    int // the work factor to write with, 1 to 22; 0 means 18
	MaxWork int // the greatest to read, 1 to 22; 0 means 22
	text    []byte
}

const (
	maxPassphrase = 65_536
	maxWork       = 22
)

// Passphrase returns the key that a passphrase is. It copies it, so that the caller may overwrite it.
func Passphrase(p []byte) *PassphraseKey { return &PassphraseKey{text: append([]byte(nil), p...)} }

var errItself = errors.New("agefile: a passphrase wraps and unwraps keys only in Encrypt, Decrypt, OpenAt and DecryptTo")

// Wrap returns an error: in Encrypt the library does this itself.
func (p *PassphraseKey) Wrap([]byte) ([]Stanza, error) { return nil, errItself }

// Unwrap returns an error: in Decrypt, OpenAt and DecryptTo the library does this itself.
func (p *PassphraseKey) Unwrap([]Stanza) ([]byte, error) { return nil, errItself }

// Format hides the passphrase in every verb.
func (p PassphraseKey) Format(state fmt.State, _ rune) {
	io.WriteString(state, "agefile.PassphraseKey")
}

// check says what is out of range.
func (p *PassphraseKey) check() error {
	switch {
	case len(p.text) < 1 || len(p.text) > maxPassphrase:
		return outOfRange("the passphrase must have 1 to 65,536 bytes")
	case p.Work < 0 || p.Work > maxWork:
		return outOfRange("Work must be 0 to 22")
	case p.MaxWork < 0 || p.MaxWork > maxWork:
		return outOfRange("MaxWork must be 0 to 22")
	}
	return nil
}

// decoderBy gives a decoder for the file whose header has these stanzas.
func decoderBy(it Identity, stanzas []Stanza) (decoder, error) {
	if p, ok := it.(*PassphraseKey); ok {
		if err := p.check(); err != nil {
			return decoder{}, err
		}
		return decoderByPassphrase(p.text, p.MaxWork)
	}
	key, err := it.Unwrap(stanzas)
	if err != nil {
		return decoder{}, noEnd(err, nil)
	}
	if len(key) != fileKeyLen {
		return decoder{}, outOfRange("the file key of an Identity must have 16 bytes")
	}
	return decoderByKey(key)
}

// encoderFor gives an encoder of a new file.
func encoderFor(to []Recipient) (encoder, error) {
	if len(to) == 0 {
		return encoder{}, outOfRange("there must be a recipient")
	}
	for _, it := range to {
		if p, ok := it.(*PassphraseKey); ok {
			if err := p.check(); err != nil {
				return encoder{}, err
			}
			if len(to) > 1 {
				return encoder{}, outOfRange("a passphrase must be the only recipient")
			}
			return encoderByPassphrase(p.text, p.Work)
		}
	}
	key := make([]byte, fileKeyLen)
	defer wipe(key)
	if _, err := rand.Read(key); err != nil {
		return encoder{}, err
	}
	lines, err := wrapped(key, to)
	if err != nil {
		return encoder{}, err
	}
	return encoderByKey(key, lines)
}

// wrapped gives the lines of the stanzas in which each recipient finds the key.
func wrapped(key []byte, to []Recipient) ([]byte, error) {
	var lines []byte
	for _, it := range to {
		own := append([]byte(nil), key...) // which it may overwrite
		stanzas, err := it.Wrap(own)
		wipe(own)
		if err != nil {
			return nil, err
		}
		if len(stanzas) == 0 {
			return nil, outOfRange("a recipient must give a stanza")
		}
		for _, s := range stanzas {
			if lines, err = s.appendTo(lines); err != nil {
				return nil, err
			}
		}
	}
	return lines, nil
}

// appendTo appends the lines of a stanza.
func (s *Stanza) appendTo(lines []byte) ([]byte, error) {
	words := append([]string{s.Type}, s.Args...)
	for _, it := range words {
		if it == "" || strings.IndexFunc(it, isOutside) >= 0 {
			return nil, outOfRange(fmt.Sprintf("a stanza's type and arguments must have visible characters of ASCII alone: %q", it))
		}
	}
	lines = append(lines, "-> "+strings.Join(words, " ")+"\n"...)
	body := base64.RawStdEncoding.EncodeToString(s.Body)
	for ; len(body) >= 64; body = body[64:] {
		lines = append(lines, body[:64]+"\n"...)
	}
	return append(lines, body+"\n"...), nil // (the last line is short, and may be empty)
}

func isOutside(r rune) bool { return r <= ' ' || r > '~' }

func wipe(bytes []byte) {
	for i := range bytes {
		bytes[i] = 0
	}
}
