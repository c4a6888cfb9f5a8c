//! A writer.

use crate::raw::{Key, RawEncoder};
use crate::{Fault, FileKey, Recipient};
use agefile_sys::{AGEFILE_BLOCK, AGEFILE_CHUNK};
use std::fmt;
use std::io::{self, ErrorKind, Write};

/// Writes files that each of its recipients can read.
pub struct Encryptor<'a>(Vec<&'a dyn Recipient>);

impl<'a> Encryptor<'a> {
    /// An encryptor for these; a [`Passphrase`](crate::Passphrase) must be the only one.
    pub fn new(recipients: &[&'a dyn Recipient]) -> Encryptor<'a> {
        Encryptor(recipients.to_vec())
    }

    /// Begins a file, and writes its header. It fails with a [`Fault`] if there is no recipient, or
    /// one isn't allowed, or an error of a recipient or of what is written to.
    pub fn wrap<W: Write>(&self, out: W) -> io::Result<Writer<W>> {
        let (raw, file) = (begun(&self.0)?, Vec::new());
        let mut writer = Writer { out, raw, file, failed: None };
        writer.put(Some(&[]))?;
        Ok(writer)
    }
}

/// Begins a file for these recipients.
fn begun(recipients: &[&dyn Recipient]) -> io::Result<RawEncoder> {
    if let [only] = recipients {
        if let Some(it) = only.as_passphrase() {
            return Ok(RawEncoder::new(it.to_write()?)?);
        }
    }
    if recipients.is_empty() {
        return Err(Fault::Misused { argument: "there must be a recipient" }.into());
    }
    let (key, mut lines) = (FileKey::random()?, String::new());
    for it in recipients {
        for stanza in it.wrap_file_key(&key)? {
            stanza.write_to(&mut lines)?;
        }
    }
    Ok(RawEncoder::new(Key::file_key(&key, &lines))?)
}

/// Writes a file, which is whole once [`Writer::finish`] has succeeded. If it is dropped before that,
/// the file has no last chunk, and every reader refuses it.
///
/// After a call failed, the file can't be finished: each later call fails too, and says why.
///
/// ```compile_fail
/// #![deny(unused_must_use)]
/// # use agefile::{Encryptor, Passphrase};
/// # fn main() -> std::io::Result<()> {
/// Encryptor::new(&[&Passphrase::new("pw")]).wrap(Vec::new())?;
/// # Ok(())
/// # }
/// ```
#[must_use = "an age file isn't whole until `finish` succeeded"]
pub struct Writer<W> {
    out: W,
    raw: RawEncoder,
    file: Vec<u8>,
    failed: Option<(ErrorKind, String)>, // how an earlier call failed, and in which words
}

impl<W: Write> Writer<W> {
    /// What is written to.
    pub fn get_ref(&self) -> &W {
        &self.out
    }

    /// What is written to, from which what was written may be taken: so a `Writer<Vec<u8>>` serves
    /// asynchronous programs.
    pub fn get_mut(&mut self) -> &mut W {
        &mut self.out
    }

    /// What is written to, without the last chunk: every reader refuses the file.
    pub fn into_inner(self) -> W {
        self.out
    }

    /// Seals the last chunk, so that the file is whole, flushes what is written to, and returns it.
    pub fn finish(mut self) -> io::Result<W> {
        self.put(None)?;
        self.see(|it| it.out.flush())?;
        Ok(self.out)
    }

    /// Passes on what a text makes of the file, or its end.
    fn put(&mut self, text: Option<&[u8]>) -> io::Result<()> {
        self.see(|it| {
            it.file.clear();
            it.raw.put(text, &mut it.file)?;
            it.out.write_all(&it.file)
        })
    }

    /// Does something, unless an earlier call failed. If this one does, or panics, later ones fail.
    fn see(&mut self, does: impl FnOnce(&mut Self) -> io::Result<()>) -> io::Result<()> {
        if let Some((kind, cause)) = &self.failed {
            let text = "the age file isn't whole, because an earlier call failed";
            return Err(io::Error::new(*kind, format!("{text}: {cause}")));
        }
        self.failed = Some((ErrorKind::Other, String::new())); // (of one that panics)
        let done = does(self);
        self.failed = done.as_ref().err().map(|error| match error.kind() {
            // (who gets these tries again, which is of no use)
            ErrorKind::WouldBlock | ErrorKind::Interrupted => (ErrorKind::Other, error.to_string()),
            kind => (kind, error.to_string()),
        });
        done
    }
}

impl<W: Write> Write for Writer<W> {
    /// Takes bytes, at most as many as a chunk has.
    fn write(&mut self, text: &[u8]) -> io::Result<usize> {
        let n = text.len().min(AGEFILE_CHUNK);
        self.put(Some(&text[..n]))?;
        Ok(n)
    }

    /// Passes on what is sealed; a chunk that isn't full is kept.
    fn flush(&mut self) -> io::Result<()> {
        self.see(|it| it.out.flush())
    }
}

impl<W> fmt::Debug for Writer<W> {
    /// Shows no key, and no plaintext.
    fn fmt(&self, f: &mut fmt::Formatter<'_>) -> fmt::Result {
        f.debug_struct("Writer").field("failed", &self.failed).finish_non_exhaustive()
    }
}

/// Returns the file of a plaintext, or fails as [`Encryptor::wrap`] does.
pub fn encrypt(recipients: &[&dyn Recipient], text: &[u8]) -> io::Result<Vec<u8>> {
    let mut raw = begun(recipients)?;
    // (room for a header, and 16 bytes for each chunk)
    let mut file = Vec::with_capacity(text.len() + text.len() / 4_096 + AGEFILE_BLOCK);
    raw.put(Some(text), &mut file)?;
    raw.put(None, &mut file)?;
    Ok(file)
}
