//go:build !cgo || !linux || !(amd64 || arm64)

package agefile

// This package calls a C library that is made for Linux on x86-64 and on 64-bit ARM. This line says
// so where it can't be built, by an error of the compiler.
var _ = agefile_needs_cgo_and_Linux_on_amd64_or_arm64
