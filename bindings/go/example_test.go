package agefile_test

import (
	"archive/zip"
	"bytes"
	"errors"
	"fmt"
	"io"
	"os"
	"path/filepath"
	"strings"

	"kudebafon.example/agefile"
)

// A text in memory, under a passphrase, and back.
func Example() {
	key := agefile.Passphrase([]byte("correct horse"))
	var file bytes.Buffer
	w, err := agefile.Encrypt(&file, key)
	if err != nil {
		panic(err)
	}
	defer w.Abandon()
	io.WriteString(w, "hello")
	if err := w.Close(); err != nil {
		panic(err)
	}
	r, err := agefile.Decrypt(&file, key)
	if err != nil {
		panic(err)
	}
	text, err := io.ReadAll(r)
	fmt.Println(string(text), err)
	// Output: hello <nil>
}

// quick is a passphrase with less work than is safe, for examples.
func quick(text string) *agefile.PassphraseKey {
	key := agefile.Passphrase([]byte(text))
	key.Work = 10
	return key
}

// encrypted is the file of a text.
func encrypted(text []byte, to agefile.Recipient) []byte {
	var file bytes.Buffer
	if err := encrypt(&file, bytes.NewReader(text), to); err != nil {
		panic(err)
	}
	return file.Bytes()
}

// encrypt writes the file of a text. If the copy fails, Abandon leaves a file that every reader refuses; after Close it does nothing.
func encrypt(dst io.Writer, src io.Reader, to ...agefile.Recipient) error {
	w, err := agefile.Encrypt(dst, to...)
	if err != nil {
		return err
	}
	defer w.Abandon()
	if _, err := io.Copy(w, src); err != nil {
		return err
	}
	return w.Close()
}

func ExampleEncrypt() {
	var file bytes.Buffer
	fmt.Println(encrypt(&file, strings.NewReader("a text"), quick("correct horse")), file.Len())
	// Output: <nil> 188
}

// What is printed before a fault was authenticated; only the end says that it is all.
func ExampleDecrypt() {
	key := quick("correct horse")
	file := encrypted(bytes.Repeat([]byte("0123456789"), 20_000), key)
	for _, damaged := range []bool{false, true} {
		if damaged {
			file[len(file)-1] ^= 1
		}
		r, err := agefile.Decrypt(bytes.NewReader(file), key)
		if err != nil {
			panic(err)
		}
		n, err := io.Copy(io.Discard, r)
		fmt.Println(n, "bytes,", err)
	}
	// Output:
	// 200000 bytes, <nil>
	// 196608 bytes, agefile: the file is damaged or was cut here, or something was appended (17 ChunkDamaged, chunk 3)
}

// The kinds of faults.
func ExampleFault() {
	key := quick("correct horse")
	file := encrypted([]byte("a text"), key)
	_, err := agefile.Decrypt(bytes.NewReader(file), agefile.Passphrase([]byte("battery staple")))
	fmt.Println(errors.Is(err, agefile.ErrWrongKey))
	r, err := agefile.Decrypt(bytes.NewReader(file[:len(file)-1]), key)
	if err == nil {
		_, err = io.ReadAll(r)
	}
	var fault *agefile.Fault
	fmt.Println(errors.Is(err, agefile.ErrNotWhole), errors.As(err, &fault) && fault.Chunk == 0, fault.Name())
	// Output:
	// true
	// true true ChunkDamaged
}

// The source of this Reader can seek, and so can the Reader. It reads little more than what is asked for.
func ExampleReader_Seek() {
	key := quick("correct horse")
	file := encrypted(bytes.Repeat([]byte("0123456789"), 20_000), key)
	r, err := agefile.Decrypt(bytes.NewReader(file), key)
	if err != nil {
		panic(err)
	}
	at, err := r.Seek(-7, io.SeekEnd)
	text, _ := io.ReadAll(r)
	fmt.Println(at, err, string(text))
	// Output: 199993 <nil> 3456789
}

// One member of an archive.
func ExampleOpenAt() {
	var archive bytes.Buffer
	w := zip.NewWriter(&archive)
	for _, name := range []string{"1.txt", "2.txt"} {
		member, _ := w.Create(name)
		io.WriteString(member, "the text of "+name)
	}
	w.Close()
	key := quick("correct horse")
	file := encrypted(archive.Bytes(), key)

	f, err := agefile.OpenAt(bytes.NewReader(file), int64(len(file)), key)
	if err != nil {
		panic(err)
	}
	members, err := zip.NewReader(f, f.Size())
	if err != nil {
		panic(err)
	}
	member, _ := members.Open("2.txt")
	text, err := io.ReadAll(member)
	fmt.Println(string(text), err)
	// Output: the text of 2.txt <nil>
}

// By four goroutines.
func ExampleDecryptTo() {
	folder, _ := os.MkdirTemp("", "example")
	defer os.RemoveAll(folder)
	key := quick("correct horse")
	file := encrypted(bytes.Repeat([]byte("0123456789"), 100_000), key)
	out, err := os.Create(filepath.Join(folder, "text"))
	if err != nil {
		panic(err)
	}
	defer out.Close()
	n, err := agefile.DecryptTo(out, bytes.NewReader(file), int64(len(file)), 4, key)
	fmt.Println(n, err)
	// Output: 1000000 <nil>
}

func ExampleInspect() {
	h, err := agefile.Inspect(bytes.NewReader(encrypted(nil, quick("correct horse"))))
	if err != nil {
		panic(err)
	}
	for _, it := range h.Stanzas {
		fmt.Println(it.Type, len(it.Args), len(it.Body))
	}
	fmt.Println(h.Work, h.Len)
	// Output:
	// scrypt 2 32
	// 10 150
}

// escrow keeps file keys outside of the files, by their names.
type escrow struct {
	name string
	keys map[string][]byte
}

func (e escrow) Wrap(fileKey []byte) ([]agefile.Stanza, error) {
	e.keys[e.name] = append([]byte(nil), fileKey...)
	return []agefile.Stanza{{Type: "example.com/escrow", Args: []string{e.name}}}, nil
}

func (e escrow) Unwrap(stanzas []agefile.Stanza) ([]byte, error) {
	for _, it := range stanzas {
		if it.Type == "example.com/escrow" && len(it.Args) == 1 && e.keys[it.Args[0]] != nil {
			return e.keys[it.Args[0]], nil
		}
	}
	return nil, agefile.ErrWrongKey
}

// A kind of key of one's own.
func ExampleIdentity() {
	keys := escrow{"first", map[string][]byte{}}
	file := encrypted([]byte("a text"), keys)
	r, err := agefile.Decrypt(bytes.NewReader(file), keys)
	if err != nil {
		panic(err)
	}
	text, err := io.ReadAll(r)
	fmt.Println(string(text), err)
	// Output: a text <nil>
}
