//! One file that several threads decrypt.

use crate::raw::RawDecoder;
use crate::reader::{of_source, Blocks, CHUNK};
use crate::{Decryptor, Fault, Identity};
use agefile_sys::AGEFILE_TRUNCATED;
use std::io::{self, Read, Seek};
use std::panic::resume_unwind;
use std::sync::atomic::{AtomicU64, Ordering};
use std::thread;

/// The greatest number of threads that [`decrypt_to`] can be asked for.
pub const MAX_WORKERS: usize = 64;

/// Decrypts a file by 1 to [`MAX_WORKERS`] threads, and returns the length of the plaintext. Each
/// reads its own file, which `source` opens, and gives `out` pieces of the plaintext and their
/// places. A `source` that calls [`File::try_clone`](std::fs::File::try_clone)
/// won't do: those files share one position, so the threads read at each other's places.
///
/// `out` has all of the plaintext only if this returns `Ok`: the last chunk, which proves the
/// length, is opened first. Else the error is that of the first chunk that has one, by its file, by
/// `out` or by `source`, and the threads stop.
///
/// ```no_run
/// use agefile::{decrypt_to, Passphrase};
/// use std::{fs::File, os::unix::fs::FileExt};
///
/// let out = File::create("backup.tar.part")?;
/// let key = Passphrase::new("correct horse");
/// let source = || File::open("backup.tar.age");
/// decrypt_to(|text, at| out.write_all_at(text, at), source, &[&key], 4)?;
/// out.sync_all()?;
/// std::fs::rename("backup.tar.part", "backup.tar")?;
/// # Ok::<(), std::io::Error>(())
/// ```
pub fn decrypt_to<R: Read + Seek>(
    out: impl Fn(&[u8], u64) -> io::Result<()> + Sync,
    source: impl Fn() -> io::Result<R> + Sync,
    identities: &[&dyn Identity],
    workers: usize,
) -> io::Result<u64> {
    if !(1..=MAX_WORKERS).contains(&workers) {
        return Err(Fault::Misused { argument: "workers must be 1 to 64" }.into());
    }
    let mut first = Decryptor::new(identities).read(source()?)?;
    let size = first.size()?;
    let parts = Parts { raw: first.raw, size, next: AtomicU64::new(0) };
    let work = || source().map_err(|it| (u64::MAX, it)).and_then(|it| parts.copy(it, &out));
    thread::scope(|scope| {
        let (_stop, mut threads) = (Stop(&parts.next), Vec::new());
        for _ in 0..workers {
            threads.push(thread::Builder::new().spawn_scoped(scope, work)?);
        }
        let ended = threads.into_iter().map(|it| it.join().unwrap_or_else(|it| resume_unwind(it)));
        let first = ended.filter_map(Result::err).min_by_key(|it| it.0);
        first.map_or(Ok(size), |it| Err(it.1))
    })
}

/// The chunks of a file, which threads take one after the other: so when one fails, all before it
/// were taken.
struct Parts {
    raw: RawDecoder,
    size: u64,
    next: AtomicU64,
}

/// Lets nobody take another chunk once it is dropped, as by an error or a panic.
struct Stop<'a>(&'a AtomicU64);

impl Drop for Stop<'_> {
    fn drop(&mut self) {
        self.0.store(u64::MAX / 2, Ordering::Relaxed);
    }
}

impl Parts {
    /// Gives `out` chunks until all are taken. An error comes with the number of its chunk.
    fn copy<R: Read + Seek>(
        &self,
        mut file: R,
        out: &impl Fn(&[u8], u64) -> io::Result<()>,
    ) -> Result<(), (u64, io::Error)> {
        let _stop = Stop(&self.next);
        let begin = file.stream_position().map_err(|it| (u64::MAX, of_source(it)))?;
        let (mut blocks, mut text) = (Blocks::new(file, begin), Vec::new());
        loop {
            let chunk = self.next.fetch_add(1, Ordering::Relaxed);
            if chunk >= self.size.div_ceil(CHUNK) {
                return Ok(());
            }
            let opened = blocks.open(&self.raw, chunk, &mut text);
            let done = opened.and_then(|is_last| {
                let at = chunk * CHUNK;
                // (who has the key can make another end, after the length was proved)
                match is_last == (at + text.len() as u64 == self.size) {
                    true => out(&text, at),
                    false => Err(Fault::new(AGEFILE_TRUNCATED, Some(chunk)).into()),
                }
            });
            done.map_err(|it| (chunk, it))?;
        }
    }
}
