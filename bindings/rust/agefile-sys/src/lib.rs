//! The functions of libagefile, as `agefile.h` declares and describes them: a proved C library, and
//! this crate is tested, not proved. The crate `agefile` has readers and writers over them.
#![no_std]
#![allow(non_camel_case_types)]

use core::ffi::{c_char, c_int, c_void};

/// Bytes of plaintext in a full chunk.
pub const AGEFILE_CHUNK: usize = 65_536;
/// Bytes of its block in the file.
pub const AGEFILE_BLOCK: usize = 65_552;

// The faults that have a name in Rust; `agefile.h` has all.
pub const AGEFILE_WORK_TOO_HIGH: c_int = 11;
pub const AGEFILE_NO_MATCH: c_int = 12;
pub const AGEFILE_MAC_MISMATCH: c_int = 14;
pub const AGEFILE_TRUNCATED: c_int = 20;
pub const AGEFILE_NO_RANDOM: c_int = 26;
pub const AGEFILE_MEMORY: c_int = 28;
pub const AGEFILE_NO_PROCESSOR: c_int = 252;
pub const AGEFILE_MISUSED: c_int = 255;

pub const AGEFILE_KIND_WRONG_KEY: c_int = 1;
pub const AGEFILE_KIND_NOT_WHOLE: c_int = 2;
pub const AGEFILE_KIND_WORK: c_int = 3;
pub const AGEFILE_KIND_MEMORY: c_int = 4;
pub const AGEFILE_KIND_MISUSE: c_int = 5;

/// A key, made by the calls below, over bytes that are the caller's.
#[repr(C)]
#[derive(Clone, Copy)]
pub struct agefile_key {
    pub kind: u32,
    /// Of a passphrase: to write, 1 to 22; to read, the most.
    pub work: u32,
    pub at: *const c_void,
    pub with: *const c_void,
    pub to: *const c_void,
    pub len: usize,
    pub with_len: usize,
}

/// Where a stanza of a header is.
#[repr(C)]
#[derive(Clone, Copy, Default)]
pub struct agefile_stanza {
    /// Offset of its arguments in the bytes of the file.
    pub args_at: usize,
    pub args_len: usize,
    /// Offset of its body in what was written.
    pub body_at: usize,
    pub body_len: usize,
}

#[repr(C)]
pub struct agefile_encoder {
    _private: [u8; 0],
}

#[repr(C)]
pub struct agefile_decoder {
    _private: [u8; 0],
}

// (one name to a line, as in the header)
#[rustfmt::skip]
extern "C" {
    pub fn agefile_version() -> c_int;

    pub fn agefile_passphrase(pass: *const c_void, len: usize) -> agefile_key;
    pub fn agefile_file_key(key: *const u8) -> agefile_key;
    pub fn agefile_wrapped(key: *const u8, stanzas: *const c_void, len: usize) -> agefile_key;
    pub fn agefile_shared(secret: *const u8, share: *const u8, recipient: *const u8) -> agefile_key;

    pub fn agefile_encrypt(key: agefile_key, text: *const c_void, len: usize,
        out: *mut c_void, room: usize, written: *mut usize) -> c_int;
    pub fn agefile_decrypt(key: agefile_key, file: *const c_void, len: usize,
        out: *mut c_void, room: usize, written: *mut usize) -> c_int;
    pub fn agefile_sealed_len(key: agefile_key, text_len: usize) -> usize;

    pub fn agefile_encoder_new(it: *mut *mut agefile_encoder, key: agefile_key) -> c_int;
    pub fn agefile_encoder_size() -> usize;
    pub fn agefile_encoder_init(it: *mut *mut agefile_encoder, key: agefile_key,
        memory: *mut c_void, len: usize) -> c_int;
    pub fn agefile_encoder_begin(it: *mut agefile_encoder, key: agefile_key) -> c_int;
    pub fn agefile_encode(it: *mut agefile_encoder, text: *const c_void, len: usize,
        out: *mut c_void, room: usize, written: *mut usize) -> c_int;
    pub fn agefile_encode_end(it: *mut agefile_encoder,
        out: *mut c_void, room: usize, written: *mut usize) -> c_int;
    pub fn agefile_encode_room(it: *const agefile_encoder, len: usize) -> usize;
    pub fn agefile_encode_end_room(it: *const agefile_encoder) -> usize;
    pub fn agefile_encoder_free(it: *mut agefile_encoder);

    pub fn agefile_decoder_new(it: *mut *mut agefile_decoder, key: agefile_key) -> c_int;
    pub fn agefile_decoder_size() -> usize;
    pub fn agefile_decoder_init(it: *mut *mut agefile_decoder, key: agefile_key,
        memory: *mut c_void, len: usize) -> c_int;
    pub fn agefile_decoder_begin(it: *mut agefile_decoder, key: agefile_key) -> c_int;
    pub fn agefile_decode(it: *mut agefile_decoder, file: *const c_void, len: usize,
        out: *mut c_void, room: usize, written: *mut usize) -> c_int;
    pub fn agefile_decode_end(it: *mut agefile_decoder,
        out: *mut c_void, room: usize, written: *mut usize) -> c_int;
    pub fn agefile_decode_room(it: *const agefile_decoder, len: usize) -> usize;
    pub fn agefile_decode_end_room(it: *const agefile_decoder) -> usize;
    pub fn agefile_decoder_free(it: *mut agefile_decoder);
    pub fn agefile_payload_at(it: *const agefile_decoder) -> u64;
    pub fn agefile_fault_chunk(it: *const agefile_decoder) -> u64;

    pub fn agefile_decode_seek(it: *mut agefile_decoder, place: u64, file_len: u64,
        offset: *mut u64) -> c_int;
    pub fn agefile_open_at(it: *const agefile_decoder, chunk: u64, block: *const c_void, len: usize,
        out: *mut c_void, room: usize, written: *mut usize, is_last: *mut c_int) -> c_int;
    pub fn agefile_size(it: *const agefile_decoder, file_len: u64, text_len: *mut u64) -> c_int;

    pub fn agefile_header(file: *const c_void, len: usize,
        header_len: *mut usize, stanzas: *mut usize, work: *mut u32) -> c_int;
    pub fn agefile_stanzas(file: *const c_void, len: usize,
        stanzas: *mut agefile_stanza, most: usize, count: *mut usize,
        out: *mut c_void, room: usize, written: *mut usize) -> c_int;

    pub fn agefile_fault_name(answer: c_int) -> *const c_char;
    pub fn agefile_fault_text(answer: c_int) -> *const c_char;
    pub fn agefile_fault_kind(answer: c_int) -> c_int;
}
