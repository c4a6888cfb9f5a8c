package agefile

import (
	"fmt"
	"io"
	"sync"
)

// A File reads the plaintext of an age file at any place. ReadAt may be called by any number of goroutines at a time; Read and Seek, which
// move one place, by one. If a chunk is damaged, the bytes before it are returned with its *Fault.
type File struct {
	src     io.ReaderAt
	decoder decoder
	end     int64 // of the file
	size    int64 // of the text
	last    int64 // the number of the last chunk
	section *io.SectionReader

	lock sync.Mutex
	kept int64  // the number of the chunk whose text is kept, or -1
	text []byte // its text, which nobody writes to
}

// OpenAt opens the header of a file of this many bytes, by the first identity that can, and its last chunk, which proves the length of the
// plaintext: a wrong size is an error, or changes nothing if it is a few bytes too large.
func OpenAt(src io.ReaderAt, size int64, by ...Identity) (*File, error) {
	if src == nil {
		return nil, errNil
	}
	if size < 0 {
		return nil, outOfRange("the file's size must be 0 or more")
	}
	head, err := frontOf(&source{file: io.NewSectionReader(src, 0, size)})
	if err != nil {
		return nil, err
	}
	f := &File{src: src, end: size, kept: -1}
	if f.decoder, err = head.open(by); err != nil {
		return nil, err
	}
	text, err := f.decoder.size(size)
	if err != nil {
		return nil, err
	}
	if text > 0 {
		f.last = (text - 1) / chunkLen
	}
	n, err := f.open(f.last, make([]byte, blockLen), make([]byte, chunkLen))
	if err != nil {
		return nil, err
	}
	f.size = f.last*chunkLen + int64(n) // which the end of that chunk proves, whatever `size` is
	f.section = io.NewSectionReader(f, 0, f.size)
	return f, nil
}

// Format hides the key and the plaintext in every verb.
func (f *File) Format(state fmt.State, _ rune) { io.WriteString(state, "agefile.File") }

// Size is the length of the plaintext.
func (f *File) Size() int64 { return f.size }

// Read implements io.Reader.
func (f *File) Read(into []byte) (int, error) {
	if f.section == nil {
		return 0, errNotOpen
	}
	return f.section.Read(into)
}

// Seek implements io.Seeker.
func (f *File) Seek(offset int64, whence int) (int64, error) {
	if f.section == nil {
		return 0, errNotOpen
	}
	return f.section.Seek(offset, whence)
}

// ReadAt implements io.ReaderAt.
func (f *File) ReadAt(into []byte, off int64) (int, error) {
	if f.section == nil {
		return 0, errNotOpen
	}
	if off < 0 {
		return 0, errNegative
	}
	done := 0
	var block []byte // one for all whole chunks of this call
	for done < len(into) {
		if off >= f.size {
			return done, io.EOF
		}
		if block == nil && len(into) >= chunkLen {
			block = make([]byte, blockLen)
		}
		n, err := f.some(into[done:], block, off)
		if err != nil {
			return done, err
		}
		done, off = done+n, off+int64(n)
	}
	return done, nil
}

// some reads what one chunk has of the bytes at a place of the plaintext. A complete one is read into the block.
func (f *File) some(into, block []byte, off int64) (int, error) {
	number, skipped := off/chunkLen, off%chunkLen
	if skipped == 0 && len(into) >= chunkLen {
		n, err := f.open(number, block, into)
		if err == nil && n == 0 {
			err = truncatedAt(number)
		}
		return n, err
	}
	text, err := f.textOf(number)
	if err != nil {
		return 0, err
	}
	if skipped >= int64(len(text)) {
		return 0, truncatedAt(number)
	}
	return copy(into, text[skipped:]), nil
}

// textOf is the plaintext of one chunk, which is kept for the next call.
func (f *File) textOf(number int64) ([]byte, error) {
	f.lock.Lock()
	kept, text := f.kept, f.text
	f.lock.Unlock()
	if kept == number {
		return text, nil
	}
	room := make([]byte, chunkLen)
	n, err := f.open(number, make([]byte, blockLen), room)
	if err != nil {
		return nil, err
	}
	f.lock.Lock()
	f.kept, f.text = number, room[:n]
	f.lock.Unlock()
	return room[:n], nil
}

// open reads the block of one chunk, and opens it into a chunk's room. Fewer bytes than there were when the file was opened are its end.
func (f *File) open(number int64, block, room []byte) (int, error) {
	at := f.decoder.payloadAt() + number*blockLen
	block = block[:least(blockLen, f.end-at)]
	n, err := f.src.ReadAt(block, at)
	if n < 0 || n > len(block) {
		return 0, errRead
	}
	if n < len(block) && err != io.EOF && err != nil {
		return 0, noEnd(err, ErrTruncated)
	}
	size, isLast, err := f.decoder.openAt(number, block[:n], room)
	if err == nil && isLast != (number == f.last) {
		return 0, truncatedAt(number + 1)
	}
	return size, err
}
