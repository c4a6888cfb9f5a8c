package agekeys_test

import (
	"archive/tar"
	"bytes"
	"compress/gzip"
	"compress/zlib"
	"errors"
	"io"
	"os"
	"strings"
	"testing"

	"filippo.io/age"
	"kudebafon.example/agefile"
)

// C2SP's test vectors for an X25519 key, of tests/cctv.tar.gz: what age's identity and the library say of each.
func TestVectors(t *testing.T) {
	archive, err := os.Open("../../../tests/cctv.tar.gz")
	if errors.Is(err, os.ErrNotExist) {
		t.Skip("this folder stands alone")
	}
	well(t, err)
	defer archive.Close()
	plain, err := gzip.NewReader(archive)
	well(t, err)
	tried := 0
	for from := tar.NewReader(plain); ; {
		entry, err := from.Next()
		if err == io.EOF {
			break
		}
		well(t, err)
		held, err := io.ReadAll(from)
		well(t, err)
		if seeVector(t, entry.Name, held) {
			tried++
		}
	}
	if tried < 30 {
		t.Error(tried, "vectors")
	}
}

// seeVector tries a vector, if it is for an X25519 key.
func seeVector(t *testing.T, name string, held []byte) bool {
	head, file, _ := bytes.Cut(held, []byte("\n\n"))
	said := map[string]string{}
	for _, line := range strings.Split(string(head), "\n") {
		key, value, _ := strings.Cut(line, ": ")
		said[key] = value
	}
	identity, err := age.ParseX25519Identity(said["identity"])
	if err != nil || said["armored"] == "yes" {
		return false
	}
	if said["compressed"] != "" {
		unpacked, err := zlib.NewReader(bytes.NewReader(file))
		well(t, err)
		file, err = io.ReadAll(unpacked)
		well(t, err)
	}
	_, err = opened(file, identity)
	isKey, isNotWhole := errors.Is(err, agefile.ErrWrongKey), errors.Is(err, agefile.ErrNotWhole)
	switch expected := said["expect"]; expected {
	case "success":
		if err != nil {
			t.Error(name, err)
		}
	case "no match":
		if !isKey {
			t.Error(name, err)
		}
	case "header failure": // (which age finds in some stanzas, by an error of its own)
		if err == nil || isKey {
			t.Error(name, err)
		}
	default:
		if !isNotWhole {
			t.Error(name, expected, err)
		}
	}
	return true
}
