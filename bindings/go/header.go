package agefile

import (
	"errors"
	"io"
)

// A Header is what the header of a file says, before anything is opened. Nobody has confirmed it: whoever can change the file can change
// it.
type Header struct {
	Len     int      // how many bytes it has
	Work    int      // the work factor that it demands of a passphrase; 0 if none opens the file
	Stanzas []Stanza // a hostile header has up to 174,000
}

// Inspect returns what the header of a file says. It reads up to 64 KiB more than that of the file.
func Inspect(src io.Reader) (*Header, error) {
	if src == nil {
		return nil, errNil
	}
	f, err := frontOf(&source{file: src})
	return f.header, err
}

// A front is the header of a file, and what was read for it: less than a block more than it and the nonce.
type front struct {
	header  *Header
	bytes   []byte
	refused error // for what no key opens it
}

// frontOf reads until the header is complete, or until another byte can't help.
func frontOf(src *source) (f front, err error) {
	probe, err := decoderByKey(make([]byte, fileKeyLen)) // which says when that is: it has the key of no file
	if err != nil {
		return f, err
	}
	defer probe.free()
	for room := make([]byte, chunkLen); err == nil && probe.payloadAt() == 0; {
		n, err := src.some(room)
		if err == io.EOF {
			break
		}
		if err != nil {
			return f, err
		}
		f.bytes = append(f.bytes, room[:n]...)
		var fault *Fault
		if _, err := probe.decode(room[:n], nil); errors.As(err, &fault) && !errors.Is(err, ErrNotWhole) {
			return f, err
		} else if fault != nil && fault.Number != macMismatch {
			f.refused = err
		}
		if fault != nil {
			break
		}
	}
	f.header, err = headerOf(f.bytes)
	return f, err
}

// open gives a decoder whose header one of the identities has opened, and which was given all that was read.
func (f front) open(by []Identity) (decoder, error) {
	if f.refused != nil {
		return decoder{}, f.refused
	}
	err := outOfRange("there must be an identity")
	for _, it := range by {
		var d decoder
		if d, err = decoderBy(it, f.header.Stanzas); err == nil {
			if err = f.openIn(d); err != nil {
				d.free()
			}
		}
		if !errors.Is(err, ErrWrongKey) {
			return d, err
		}
	}
	return decoder{}, err
}

func (f front) openIn(d decoder) error {
	for left := f.bytes; len(left) > 0; {
		n := least(len(left), chunkLen)
		if _, err := d.decode(left[:n], nil); err != nil {
			return err
		}
		left = left[n:]
	}
	if d.payloadAt() > 0 {
		return nil
	}
	_, err := d.end(nil) // the file ends in the nonce: a fault
	return err
}
