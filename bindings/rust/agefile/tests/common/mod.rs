//! What the tests have in common.
#![allow(dead_code)]

pub mod primitives;

use agefile::{encrypt, Decryptor, Fault, Passphrase, Reader};
use std::io::{self, ErrorKind, Read};

pub const LENGTHS: [usize; 8] = [0, 1, 65_535, 65_536, 65_537, 131_071, 131_072, 200_000];
pub const CHUNK: usize = 65_536;
pub const BLOCK: usize = 65_552;

pub fn pw() -> Passphrase {
    Passphrase::new("pw").work(1)
}

/// Bytes that look random, and are the same each time.
pub fn text_of(len: usize) -> Vec<u8> {
    let byte = |at: usize| (at.wrapping_mul(2_654_435_761) >> 13) as u8;
    (0..len).map(byte).collect()
}

pub fn sealed(text: &[u8]) -> Vec<u8> {
    encrypt(&[&pw()], text).unwrap()
}

/// Where the payload of a file begins whose text has this length.
pub fn payload_of(file: &[u8], len: usize) -> usize {
    file.len() - len - 16 * len.div_ceil(CHUNK).max(1)
}

pub fn open<R: Read>(source: R) -> io::Result<Reader<R>> {
    Decryptor::new(&[&pw()]).read(source)
}

/// The text before the first error, and that.
pub fn read_all(mut source: impl Read) -> (Vec<u8>, io::Result<()>) {
    let mut text = Vec::new();
    let done = source.read_to_end(&mut text).map(drop);
    (text, done)
}

pub fn text_in(file: &[u8], key: &Passphrase) -> io::Result<Vec<u8>> {
    let mut text = Vec::new();
    Decryptor::new(&[key]).read(file)?.read_to_end(&mut text)?;
    Ok(text)
}

pub fn fault<T>(found: io::Result<T>) -> Fault {
    let error = found.err().expect("a fault");
    assert_ne!(error.kind(), ErrorKind::UnexpectedEof);
    Fault::of(&error).expect("a fault")
}

/// The number of the fault, and the chunk if it is about one.
pub fn number<T>(found: io::Result<T>) -> (i32, Option<u64>) {
    match fault(found) {
        Fault::NotWhole { number, chunk } => (number, chunk),
        other => (other.number(), None),
    }
}

/// Random numbers (SplitMix64).
pub struct Random(pub u64);

impl Random {
    pub fn below(&mut self, limit: usize) -> usize {
        self.0 = self.0.wrapping_add(0x9e37_79b9_7f4a_7c15);
        let it = (self.0 ^ self.0 >> 30).wrapping_mul(0xbf58_476d_1ce4_e5b9);
        let it = (it ^ it >> 27).wrapping_mul(0x94d0_49bb_1331_11eb);
        ((it ^ it >> 31) % limit.max(1) as u64) as usize
    }
}

/// A source that gives at most this many bytes, and is interrupted before each.
pub struct Pieces<R>(pub R, pub usize, pub bool);

impl<R: Read> Read for Pieces<R> {
    fn read(&mut self, room: &mut [u8]) -> io::Result<usize> {
        self.2 = !self.2;
        if self.2 {
            return Err(ErrorKind::Interrupted.into());
        }
        let most = room.len().min(self.1);
        self.0.read(&mut room[..most])
    }
}
