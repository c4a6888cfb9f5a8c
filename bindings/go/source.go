package agefile

import (
	"errors"
	"io"
)

var (
	errNil     = errors.New("agefile: the file to read or to write is nil")
	errNotOpen = errors.New("agefile: a Reader, File or Writer that none of Decrypt, OpenAt and Encrypt returned")
	errCopied  = errors.New("agefile: a copy of a Reader or Writer")
	errRead    = errors.New("agefile: a Read returned a count that is out of range")
	errWrite   = errors.New("agefile: a Write returned a count that is out of range")
)

// own refuses a Reader or Writer that nobody opened, or that is a copy of another.
func own[T any](self, it *T) error {
	switch self {
	case nil:
		return errNotOpen
	case it:
		return nil
	}
	return errCopied
}

// A source gives what comes with an error first, and the error at the next read: it may come only once.
type source struct {
	file io.Reader
	err  error
}

func (s *source) Read(room []byte) (int, error) {
	if err := s.err; err != nil {
		s.err = nil
		return 0, err
	}
	n, err := s.file.Read(room)
	if n > 0 {
		s.err, err = err, nil
	}
	return n, err
}

// some reads at least a byte, or says why there is none.
func (s *source) some(room []byte) (int, error) {
	for idle := 0; idle < 100; idle++ {
		n, err := s.Read(room)
		if n < 0 || n > len(room) {
			return 0, errRead
		}
		if n > 0 || err != nil {
			return n, noEnd(err, ErrTruncated)
		}
	}
	return 0, io.ErrNoProgress
}

// A foreign error comes from what this package was given, and could be taken for the end of a plaintext.
type foreign struct{ err, kind error }

func (f *foreign) Error() string { return "agefile: what the file is read from: " + f.err.Error() }

func (f *foreign) Is(target error) bool {
	return target == f.kind || target == ErrNotWhole && f.kind == ErrTruncated
}

// As finds what was returned, as a *url.Error, by which programs try again. (Unwrap would lead to io.EOF.)
func (f *foreign) As(target any) bool { return errors.As(f.err, target) }

// noEnd is an error as it is passed on. errors.Is may not find an end in it: net/http's wraps io.EOF if the server hangs up.
func noEnd(err, kind error) error {
	if err != io.EOF && errors.Is(err, io.EOF) || errors.Is(err, io.ErrUnexpectedEOF) {
		return &foreign{err, kind}
	}
	return err
}

// writeAll writes bytes, and says how many were taken, and why not all were. Without bytes it doesn't call Write: that of an
// http.ResponseWriter would send status 200 before anything was authenticated.
func writeAll(dst io.Writer, text []byte) (int, error) {
	if len(text) == 0 {
		return 0, nil
	}
	n, err := dst.Write(text)
	return written(len(text), n, err)
}

// written says how much was written of what was given, and why not all was.
func written(given, n int, err error) (int, error) {
	if n < 0 || n > given {
		return 0, errWrite
	}
	if err == nil && n < given {
		err = io.ErrShortWrite
	}
	return n, err
}

func least[T int | int64](a, b T) T {
	if a < b {
		return a
	}
	return b
}
