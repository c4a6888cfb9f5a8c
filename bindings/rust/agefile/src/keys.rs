//! Who can read a file.

use crate::raw::Key;
use crate::{Fault, Stanza};
use agefile_sys::AGEFILE_NO_RANDOM;
use std::ffi::{c_uint, c_void};
use std::fmt;
use std::io::{self, ErrorKind};
use std::sync::atomic::{compiler_fence, Ordering};

/// Who is to read a file: something that wraps its key in stanzas of the header.
pub trait Recipient {
    /// The stanzas in which the recipient finds the file key.
    fn wrap_file_key(&self, file_key: &FileKey) -> io::Result<Vec<Stanza>>;

    /// The passphrase, if it is one: the library makes its stanza.
    fn as_passphrase(&self) -> Option<&Passphrase> {
        None
    }
}

/// Who reads a file: something that finds its key in a stanza of the header. (It is `Sync`, so that
/// a [`Decoder`](crate::Decoder) is `Send`.)
pub trait Identity: Sync {
    /// The file key in a stanza, or why there is none; `None` if the stanza is for somebody else.
    /// A stranger's header may have 174,000 of them.
    fn unwrap_stanza(&self, stanza: &Stanza) -> Option<io::Result<FileKey>>;

    /// The same for all stanzas of a header: the first answer of one of them.
    fn unwrap_stanzas(&self, stanzas: &[Stanza]) -> Option<io::Result<FileKey>> {
        stanzas.iter().find_map(|it| self.unwrap_stanza(it))
    }

    /// The passphrase, if it is one: the library opens its stanza.
    fn as_passphrase(&self) -> Option<&Passphrase> {
        None
    }
}

/// The key of one file, from which all others are derived. As an [`Identity`] it reads that file.
#[derive(Clone, Debug)]
pub struct FileKey(Secret<[u8; 16]>);

impl FileKey {
    /// The key of these bytes.
    pub fn new(bytes: [u8; 16]) -> FileKey {
        FileKey(Secret(Box::new(bytes)))
    }

    /// A new key.
    pub(crate) fn random() -> Result<FileKey, Fault> {
        let mut key = FileKey::new([0; 16]);
        loop {
            // SAFETY: there is room for 16 bytes.
            match unsafe { getrandom(key.0 .0.as_mut_ptr().cast(), 16, 0) } {
                16 => return Ok(key),
                _ if io::Error::last_os_error().kind() == ErrorKind::Interrupted => {}
                _ => return Err(Fault::new(AGEFILE_NO_RANDOM, None)),
            }
        }
    }

    /// The bytes, to wrap them.
    pub fn expose(&self) -> &[u8; 16] {
        &self.0 .0
    }
}

extern "C" {
    fn getrandom(into: *mut c_void, len: usize, flags: c_uint) -> isize;
}

impl Identity for FileKey {
    fn unwrap_stanza(&self, _: &Stanza) -> Option<io::Result<FileKey>> {
        Some(Ok(self.clone()))
    }
}

/// A passphrase. As a [`Recipient`] it must be the only one.
#[derive(Debug)]
pub struct Passphrase {
    bytes: Secret<[u8]>,
    work: u32,
    max_work: u32,
}

impl Passphrase {
    /// A copy of these 1 to 65,536 bytes; other lengths are refused when they are used.
    pub fn new(passphrase: impl AsRef<[u8]>) -> Passphrase {
        Passphrase { bytes: Secret(passphrase.as_ref().into()), work: 18, max_work: 22 }
    }

    /// Lets who reads the file that it writes spend 2^work KiB of memory: 1 to 22, and 18 if it
    /// isn't said.
    pub fn work(self, work: u32) -> Passphrase {
        Passphrase { work, ..self }
    }

    /// Refuses to read a file that demands more than 2^max_work KiB of memory: 1 to 22, and 22 if it
    /// isn't said, so that an untrusted file may demand 4 GiB.
    pub fn max_work(self, max_work: u32) -> Passphrase {
        Passphrase { max_work, ..self }
    }

    pub(crate) fn to_write(&self) -> Result<Key<'_>, Fault> {
        self.key(self.work, "work must be 1 to 22")
    }

    pub(crate) fn to_read(&self) -> Result<Key<'_>, Fault> {
        self.key(self.max_work, "max_work must be 1 to 22")
    }

    fn key(&self, work: u32, argument: &'static str) -> Result<Key<'_>, Fault> {
        if !(1..=65_536).contains(&self.bytes.0.len()) {
            return Err(Fault::Misused { argument: "a passphrase must have 1 to 65,536 bytes" });
        }
        if !(1..=22).contains(&work) {
            return Err(Fault::Misused { argument });
        }
        Ok(Key::passphrase(&self.bytes.0, work))
    }
}

impl Recipient for Passphrase {
    fn wrap_file_key(&self, _: &FileKey) -> io::Result<Vec<Stanza>> {
        Err(Fault::Misused { argument: "a passphrase must be the only recipient" }.into())
    }

    fn as_passphrase(&self) -> Option<&Passphrase> {
        Some(self)
    }
}

impl Identity for Passphrase {
    fn unwrap_stanza(&self, _: &Stanza) -> Option<io::Result<FileKey>> {
        None
    }

    fn as_passphrase(&self) -> Option<&Passphrase> {
        Some(self)
    }
}

/// Bytes in memory of their own, which doesn't move with their owner, and which is overwritten when
/// they are dropped. Its `Debug` shows none of them.
#[derive(Clone)]
struct Secret<T: AsMut<[u8]> + ?Sized>(Box<T>);

/// Overwrites bytes with zeros, which no compiler leaves out.
fn wipe(bytes: &mut [u8]) {
    // SAFETY: each is a byte.
    bytes.iter_mut().for_each(|it| unsafe { std::ptr::write_volatile(it, 0) });
    compiler_fence(Ordering::SeqCst);
}

impl<T: AsMut<[u8]> + ?Sized> Drop for Secret<T> {
    fn drop(&mut self) {
        wipe((*self.0).as_mut());
    }
}

impl<T: AsMut<[u8]> + ?Sized> fmt::Debug for Secret<T> {
    fn fmt(&self, f: &mut fmt::Formatter<'_>) -> fmt::Result {
        f.write_str("..")
    }
}

#[test]
fn nothing_is_left_of_a_secret() {
    let mut bytes = [7; 99];
    wipe(&mut bytes);
    assert_eq!(bytes, [0; 99]);
}
