//! The library's objects.

use crate::{Fault, FileKey};
use agefile_sys::*;
use std::ffi::{c_int, c_void};
use std::marker::PhantomData;
use std::ptr::{null_mut, NonNull};

/// A key of the library, over bytes that it borrows.
pub(crate) struct Key<'a>(agefile_key, PhantomData<&'a ()>);

impl<'a> Key<'a> {
    pub(crate) fn passphrase(bytes: &'a [u8], work: u32) -> Key<'a> {
        // SAFETY: there are as many bytes as it says.
        let key = unsafe { agefile_passphrase(bytes.as_ptr().cast(), bytes.len()) };
        Key(agefile_key { work, ..key }, PhantomData)
    }

    /// A file key, and to write the lines of the stanzas that wrap it.
    pub(crate) fn file_key(key: &'a FileKey, lines: &'a str) -> Key<'a> {
        let (key, at) = (key.expose().as_ptr(), lines.as_ptr().cast());
        // SAFETY: it has 16 bytes, and there are as many bytes of lines as it says.
        Key(unsafe { agefile_wrapped(key, at, lines.len()) }, PhantomData)
    }
}

/// An object of the library, which is overwritten and freed when it is dropped.
struct Owned<T>(NonNull<T>, unsafe extern "C" fn(*mut T));

// SAFETY: it belongs to no thread.
unsafe impl<T> Send for Owned<T> {}
// SAFETY: calls that take it as const may run at the same time.
unsafe impl<T> Sync for Owned<T> {}

impl<T> Owned<T> {
    fn new(
        key: Key,
        make: unsafe extern "C" fn(*mut *mut T, agefile_key) -> c_int,
        free: unsafe extern "C" fn(*mut T),
    ) -> Result<Owned<T>, Fault> {
        let mut it = null_mut();
        // SAFETY: the key's bytes are borrowed.
        Fault::see(unsafe { make(&mut it, key.0) }, None)?;
        NonNull::new(it).map(|it| Owned(it, free)).ok_or(Fault::OutOfMemory)
    }
}

impl<T> Drop for Owned<T> {
    fn drop(&mut self) {
        // SAFETY: it isn't used again.
        unsafe { self.1(self.0.as_ptr()) }
    }
}

/// What a call answers that writes to the end of `out`, where there is room for that.
fn append(
    out: &mut Vec<u8>,
    room: usize,
    call: impl FnOnce(*mut c_void, usize, *mut usize) -> c_int,
) -> c_int {
    out.reserve(room);
    let (rest, mut written) = (out.spare_capacity_mut(), 0);
    let answer = call(rest.as_mut_ptr().cast(), rest.len(), &mut written);
    // SAFETY: the call wrote that many bytes there.
    unsafe { out.set_len(out.len() + written) }
    answer
}

/// What makes a file of a plaintext.
pub(crate) struct RawEncoder(Owned<agefile_encoder>);

impl RawEncoder {
    pub(crate) fn new(key: Key) -> Result<RawEncoder, Fault> {
        Ok(RawEncoder(Owned::new(key, agefile_encoder_new, agefile_encoder_free)?))
    }

    /// Takes a text, or its end, and appends what that makes of the file, at first the header.
    pub(crate) fn put(&mut self, text: Option<&[u8]>, file: &mut Vec<u8>) -> Result<(), Fault> {
        let it = self.0 .0.as_ptr();
        // SAFETY: it is one, there are as many bytes as it says, and nothing overlaps.
        let answer = unsafe {
            match text.map(|it| (it.as_ptr().cast(), it.len())) {
                Some((at, len)) => {
                    append(file, agefile_encode_room(it, len), |out, room, written| {
                        agefile_encode(it, at, len, out, room, written)
                    })
                }
                None => append(file, agefile_encode_end_room(it), |out, room, written| {
                    agefile_encode_end(it, out, room, written)
                }),
            }
        };
        Fault::see(answer, None)
    }
}

/// What makes a plaintext of a file.
pub(crate) struct RawDecoder(Owned<agefile_decoder>);

impl RawDecoder {
    pub(crate) fn new(key: Key) -> Result<RawDecoder, Fault> {
        Ok(RawDecoder(Owned::new(key, agefile_decoder_new, agefile_decoder_free)?))
    }

    fn at(&self) -> *mut agefile_decoder {
        self.0 .0.as_ptr()
    }

    /// Takes bytes of the file, or its end, and appends the plaintext that they complete, even before
    /// a fault. The plaintext is whole once an end has succeeded.
    pub(crate) fn put(&mut self, file: Option<&[u8]>, text: &mut Vec<u8>) -> Result<(), Fault> {
        let it = self.at();
        // SAFETY: it is one, there are as many bytes as it says, and nothing overlaps.
        unsafe {
            let answer = match file.map(|it| (it.as_ptr().cast(), it.len())) {
                Some((at, len)) => {
                    append(text, agefile_decode_room(it, len), |out, room, written| {
                        agefile_decode(it, at, len, out, room, written)
                    })
                }
                None => append(text, agefile_decode_end_room(it), |out, room, written| {
                    agefile_decode_end(it, out, room, written)
                }),
            };
            Fault::see(answer, Some(agefile_fault_chunk(it)))
        }
    }

    /// Where the payload begins in the file, once the header is open; 0 before.
    pub(crate) fn payload_at(&self) -> u64 {
        // SAFETY: it is one.
        unsafe { agefile_payload_at(self.at()) }
    }

    /// Goes to a place in the plaintext. Returns from where on to give the file.
    pub(crate) fn seek(&mut self, place: u64, file_len: u64) -> Result<u64, Fault> {
        let mut offset = 0;
        // SAFETY: it is one.
        let answer = unsafe { agefile_decode_seek(self.at(), place, file_len, &mut offset) };
        Fault::see(answer, None).map(|()| offset)
    }

    /// The length of the plaintext of a file of this length, if it is whole.
    pub(crate) fn size(&self, file_len: u64) -> Result<u64, Fault> {
        let mut text_len = 0;
        // SAFETY: it is one.
        let answer = unsafe { agefile_size(self.at(), file_len, &mut text_len) };
        Fault::see(answer, None).map(|()| text_len)
    }

    /// Appends the plaintext of a chunk by its block. Returns whether it is the last one.
    pub(crate) fn open_at(
        &self,
        chunk: u64,
        block: &[u8],
        text: &mut Vec<u8>,
    ) -> Result<bool, Fault> {
        let (it, at, len, mut is_last) = (self.at(), block.as_ptr().cast(), block.len(), 0);
        // SAFETY: it is one, there are as many bytes as it says, and nothing overlaps.
        let answer = append(text, AGEFILE_CHUNK, |out, room, written| unsafe {
            agefile_open_at(it, chunk, at, len, out, room, written, &mut is_last)
        });
        Fault::see(answer, Some(chunk)).map(|()| is_last != 0)
    }
}
