// Package agefile reads and writes age files (https://c2sp.org/age), over a proved C library; this module is tested, not proved.
//
// Decrypt gives an io.Reader over any io.Reader, and OpenAt one that reads at any place of an io.ReaderAt; Encrypt gives an
// io.WriteCloser. No byte is returned before its chunk has been authenticated, and io.EOF comes only after the last chunk has been. No
// fault is io.EOF or io.ErrUnexpectedEOF, so a truncated file never looks like the end of its records.
//
// Keys are a Passphrase, and whatever implements Recipient and Identity; the module agekeys makes those of filippo.io/age.
//
// A Writer overwrites its file key when it is closed or abandoned, and a Reader over a source that can't seek when it has returned io.EOF
// or a *Fault. Other Readers, and a File, don't, nor does a passphrase.
//
// It links the library for its processor that lies in its folder; with -tags agefile_system it links the installed one, as pkg-config finds
// it. It needs cgo, and Linux on x86-64 (with x86-64-v2) or on 64-bit ARM.
package agefile
