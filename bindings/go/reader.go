package agefile

import (
	"errors"
	"fmt"
	"io"
)

var (
	errSeek     = errors.New("agefile: what the file is read from can't seek")
	errWhence   = errors.New("agefile: Seek from nowhere")
	errNegative = errors.New("agefile: a place before the beginning")
	errGrown    = errors.New("agefile: the file became longer")
)

// A Reader reads the plaintext of an age file. One goroutine at a time may use it. It holds 197 KiB.
//
// It returns all of the plaintext before a damaged chunk, then no byte and a *Fault. If a read of the source fails, that error is returned,
// and the next Read goes on.
type Reader struct {
	self    *Reader // which a copy isn't
	src     *source
	seeker  io.Seeker // the source, if it can seek
	base    int64     // where the file begins in it
	decoder decoder
	block   []byte // where the file is read
	lack    int    // how many bytes the block lacks that is open
	chunk   []byte // where the text of a block goes
	text    []byte // the part of it that isn't returned yet
	at      int64  // the place of the next byte in the plaintext
	err     error  // how the text ends
}

// Decrypt opens the header of a file by the first identity that can. It reads no more of the file than it needs, apart from what comes in
// the same read. If src is an io.Seeker that can seek, the file begins where that stands, and the Reader can seek, too.
func Decrypt(src io.Reader, by ...Identity) (*Reader, error) {
	if src == nil {
		return nil, errNil
	}
	r := &Reader{src: &source{file: src}, block: make([]byte, blockLen), chunk: make([]byte, chunkLen)}
	r.self = r
	if it, ok := src.(io.Seeker); ok {
		if at, err := it.Seek(0, io.SeekCurrent); err == nil {
			r.seeker, r.base = it, at
		}
	}
	f, err := frontOf(r.src)
	if err != nil {
		return nil, err
	}
	if r.decoder, err = f.open(by); err != nil {
		return nil, err
	}
	r.lack = blockLen - (len(f.bytes) - int(r.decoder.payloadAt()))
	return r, nil
}

// Format hides the key and the plaintext in every verb.
func (r Reader) Format(state fmt.State, _ rune) { io.WriteString(state, "agefile.Reader") }

// next opens what comes next of the file, into a chunk's room.
func (r *Reader) next(room []byte) (int, error) {
	if r.err != nil {
		return 0, r.err
	}
	n, err := r.src.some(r.block[:r.lack])
	switch err {
	case nil:
		if r.lack -= n; r.lack == 0 {
			r.lack = blockLen
		}
		n, r.err = r.decoder.decode(r.block[:n], room)
	case io.EOF:
		if n, r.err = r.decoder.end(room); r.err == nil {
			r.err = io.EOF
		}
	default:
		return 0, err
	}
	if r.err != nil && r.seeker == nil {
		r.decoder.free() // it has the file key, and isn't used again
	}
	if n > 0 {
		return n, nil
	}
	return 0, r.err
}

// Read implements io.Reader.
func (r *Reader) Read(into []byte) (int, error) {
	if err := own(r.self, r); err != nil {
		return 0, err
	}
	for len(r.text) == 0 && len(into) > 0 {
		if len(into) >= chunkLen {
			if n, err := r.next(into); n > 0 || err != nil {
				r.at += int64(n)
				return n, err
			}
		} else if n, err := r.next(r.chunk); err != nil {
			return 0, err
		} else {
			r.text = r.chunk[:n]
		}
	}
	n := copy(into, r.text)
	r.text, r.at = r.text[n:], r.at+int64(n)
	return n, nil
}

// WriteTo implements io.WriterTo.
func (r *Reader) WriteTo(dst io.Writer) (int64, error) {
	if err := own(r.self, r); err != nil {
		return 0, err
	}
	for begun := r.at; ; {
		n, err := writeAll(dst, r.text)
		if r.text, r.at = r.text[n:], r.at+int64(n); err != nil {
			return r.at - begun, err
		}
		if n, err = r.next(r.chunk); err == io.EOF {
			return r.at - begun, nil
		} else if err != nil {
			return r.at - begun, err
		}
		r.text = r.chunk[:n]
	}
}

// Seek implements io.Seeker, if the source can seek; else it only tells the place. A place after the end is the end to Read. From the end
// it opens the last chunk, which proves where that is; a Read at the first byte of a chunk opens the one before, too. After an error the place is as before; if the source failed, no Read succeeds until a
// Seek does.
func (r *Reader) Seek(offset int64, whence int) (int64, error) {
	if err := own(r.self, r); err != nil {
		return 0, err
	}
	at, err := offset, error(nil)
	switch {
	case whence == io.SeekCurrent && offset == 0:
		return r.at, nil
	case r.seeker == nil:
		return r.at, errSeek
	case whence == io.SeekCurrent:
		at += r.at
	case whence == io.SeekEnd:
		var size int64
		size, err = r.size()
		at += size
	case whence != io.SeekStart:
		err = errWhence
	}
	if err == nil && at < 0 {
		err = errNegative
	}
	if err == nil {
		err = r.goTo(at)
	}
	return r.at, err
}

// goTo makes the next byte that of a place.
func (r *Reader) goTo(at int64) error {
	end, err := r.seeker.Seek(0, io.SeekEnd)
	offset := int64(0)
	if err == nil {
		offset, err = r.decoder.seek(at, end-r.base)
	}
	if err == nil {
		_, err = r.seeker.Seek(r.base+offset, io.SeekStart)
	}
	r.src.err, r.lack, r.text, r.err = nil, blockLen, nil, err
	if err == nil {
		r.at = at
	}
	return err
}

// size is the length of the plaintext, which its last chunk proves. The place stays.
func (r *Reader) size() (int64, error) {
	was := r.at
	end, err := r.seeker.Seek(0, io.SeekEnd)
	if err != nil {
		r.err = err
		return 0, err
	}
	size, err := r.decoder.size(end - r.base)
	if err == nil {
		err = r.goTo(size)
	}
	if err == nil {
		if _, err = r.Read(make([]byte, 1)); err == nil {
			err = errGrown
		}
	}
	if back := r.goTo(was); err == io.EOF {
		err = back
	}
	return size, err
}
