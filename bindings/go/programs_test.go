package agefile_test

// The programs that users write first and example_test.go hasn't, each run. Their lines as functions, and those of the same over age's own
// package (filippo.io/age 1.1.1), of which - has no way: encrypt a stream 11 (example_test.go), 10; decrypt one 8, 8; in memory, for recipients
// and by identities the same two; a member of a zip 12 (ExampleOpenAt), -; verify 7, 8 (decrypt, whose error may be that of the key); pieces
// as they arrive 11, 11; resume 15, -; salvage 12, -; inspect 11 (ExampleInspect), -.

import (
	"bytes"
	"errors"
	"fmt"
	"io"
	"os"
	"path/filepath"

	"kudebafon.example/agefile"
)

// decrypt writes the text of a file: all of it, or an error.
func decrypt(dst io.Writer, src io.Reader, by ...agefile.Identity) error {
	r, err := agefile.Decrypt(src, by...)
	if err != nil {
		return err
	}
	_, err = io.Copy(dst, r)
	return err
}

// isWhole verifies a file. It may be whole and of another key: then there is another error.
func isWhole(src io.Reader, by agefile.Identity) (bool, error) {
	err := decrypt(io.Discard, src, by)
	if errors.Is(err, agefile.ErrNotWhole) {
		return false, nil
	}
	return err == nil, err
}

func ExampleDecrypt_verify() {
	key := quick("correct horse")
	file := encrypted(bytes.Repeat([]byte("0123456789"), 20_000), key)
	fmt.Println(isWhole(bytes.NewReader(file), key))
	fmt.Println(isWhole(bytes.NewReader(file[:len(file)-1]), key))
	_, err := isWhole(bytes.NewReader(file), quick("battery"))
	fmt.Println(errors.Is(err, agefile.ErrWrongKey))
	// Output:
	// true <nil>
	// false <nil>
	// true
}

// decryptPieces decrypts what a channel sends.
func decryptPieces(dst io.Writer, pieces <-chan []byte, by agefile.Identity) error {
	src, pipe := io.Pipe()
	defer src.Close() // so that nothing waits to be read
	go func() {
		for it := range pieces {
			pipe.Write(it)
		}
		pipe.Close()
	}()
	return decrypt(dst, src, by)
}

// A file that arrives in pieces.
func ExampleDecrypt_pieces() {
	key := quick("correct horse")
	file, pieces := encrypted([]byte("a text"), key), make(chan []byte)
	go func() {
		defer close(pieces)
		for at := 0; at < len(file); at += 47 {
			pieces <- file[at : at+47]
		}
	}()
	var text bytes.Buffer
	fmt.Println(decryptPieces(&text, pieces, key), text.String())
	// Output: <nil> a text
}

// resume goes on where an output stopped.
func resume(out *os.File, src io.ReadSeeker, by agefile.Identity) error {
	r, err := agefile.Decrypt(src, by)
	if err != nil {
		return err
	}
	at, err := out.Seek(0, io.SeekEnd)
	if err != nil {
		return err
	}
	if _, err := r.Seek(at, io.SeekStart); err != nil {
		return err
	}
	_, err = io.Copy(out, r)
	return err
}

func ExampleReader_Seek_resume() {
	folder, _ := os.MkdirTemp("", "example")
	defer os.RemoveAll(folder)
	key, text := quick("correct horse"), bytes.Repeat([]byte("0123456789"), 20_000)
	name := filepath.Join(folder, "text")
	os.WriteFile(name, text[:70_000], 0o600)
	out, err := os.OpenFile(name, os.O_WRONLY, 0)
	if err != nil {
		panic(err)
	}
	defer out.Close()
	fmt.Println(resume(out, bytes.NewReader(encrypted(text, key)), key))
	all, err := os.ReadFile(name)
	fmt.Println(bytes.Equal(all, text), err)
	// Output:
	// <nil>
	// true <nil>
}

// salvage writes each chunk that opens, at its place, and returns the places of those that don't.
func salvage(dst io.WriterAt, f *agefile.File) (lost []int64, err error) {
	room := make([]byte, 65_536)
	for at := int64(0); at < f.Size() && err == nil; at += int64(len(room)) {
		n, fault := f.ReadAt(room, at)
		if fault != nil && fault != io.EOF {
			lost = append(lost, at)
			continue
		}
		_, err = dst.WriteAt(room[:n], at)
	}
	return lost, err
}

// What opens of a file whose last chunk does.
func ExampleFile_ReadAt() {
	out, err := os.CreateTemp("", "example")
	if err != nil {
		panic(err)
	}
	defer os.Remove(out.Name())
	defer out.Close()
	key := quick("correct horse")
	file := encrypted(bytes.Repeat([]byte("0123456789"), 20_000), key)
	file[len(file)-100_000] ^= 1
	f, err := agefile.OpenAt(bytes.NewReader(file), int64(len(file)), key)
	if err != nil {
		panic(err)
	}
	fmt.Println(salvage(out, f))
	// Output: [65536] <nil>
}
