//! What `std::io` says of readers and writers.

mod common;

use agefile::{decrypt, Encryptor};
use common::*;
use std::io::{self, BufRead, Cursor, ErrorKind, Read, Seek, SeekFrom, Write};

/// `Read` and `BufRead`: no byte for no room, nothing beyond the count, all of what `fill_buf` shows
/// stays until it is consumed, and the end stays the end.
fn see_reader(mut file: impl BufRead, text: &[u8]) {
    let (mut got, mut room, mut turn) = (Vec::new(), vec![0xaa; 70_000], 0);
    loop {
        assert_eq!(file.read(&mut []).unwrap(), 0);
        let seen = file.fill_buf().unwrap().to_vec();
        assert_eq!(file.fill_buf().unwrap(), seen);
        file.consume(0);
        let most = [1, 100, 65_536, 70_000][turn % 4];
        let n = file.read(&mut room[..most]).unwrap();
        assert!(room[n..].iter().all(|&it| it == 0xaa));
        assert_eq!((n == 0, &room[..n]), (seen.is_empty(), &seen[..n.min(seen.len())]));
        got.extend_from_slice(&room[..n]);
        room[..n].fill(0xaa);
        if n == 0 {
            break;
        }
        let rest = file.fill_buf().unwrap();
        let some = rest.len().min(7);
        got.extend_from_slice(&rest[..some]);
        file.consume(some);
        turn += 1;
    }
    assert_eq!(got, text);
    assert_eq!(file.read(&mut room).unwrap(), 0);
    assert!(file.fill_buf().unwrap().is_empty());
    assert_eq!(file.read_to_end(&mut got).unwrap(), 0);
    let error = file.read_exact(&mut room[..1]).unwrap_err();
    assert_eq!(error.kind(), ErrorKind::UnexpectedEof);
}

#[test]
fn readers() {
    for len in LENGTHS {
        let text = text_of(len);
        let file = sealed(&text);
        for size in [1, 9_999, 1 << 20] {
            if size > 1 || len < 70_000 {
                see_reader(open(Pieces(&file[..], size, false)).unwrap(), &text);
            }
        }
        let mut sought = open(Cursor::new(&file[..])).unwrap();
        sought.seek(SeekFrom::End(0)).unwrap();
        sought.rewind().unwrap();
        see_reader(sought, &text);
    }
}

/// `Seek`: a place before the beginning is refused and moves nothing; one after the end is the end.
#[test]
fn seeks() {
    let text = text_of(200_000);
    let mut file = open(Cursor::new(sealed(&text))).unwrap();
    let mut memory = Cursor::new(&text[..]);
    let (mut one, mut other) = ([0; 5_000], [0; 5_000]);
    for turn in 0..300i64 {
        let to = match turn % 3 {
            0 => SeekFrom::Start((turn as u64 * 41_233) % 210_000),
            1 => SeekFrom::Current((turn * 7_919) % 90_000 - 60_000),
            _ => SeekFrom::End(-((turn * 30_011) % 205_000)),
        };
        let (got, want) = (file.seek(to), memory.seek(to));
        assert_eq!(got.map_err(|it| it.kind()), want.map_err(|it| it.kind()));
        let n = memory.read(&mut other).unwrap();
        file.read_exact(&mut one[..n]).unwrap();
        assert_eq!((&one[..n], file.stream_position().unwrap()), (&other[..n], memory.position()));
    }
}

/// `Write`: a count says how many bytes were taken, none for none, and `flush` seals nothing.
#[test]
fn writers() {
    let text = text_of(200_000);
    let mut file = Encryptor::new(&[&pw()]).wrap(Vec::new()).unwrap();
    let mut left = &text[..];
    while !left.is_empty() {
        assert_eq!(file.write(&[]).unwrap(), 0);
        let n = file.write(&left[..left.len().min(70_000)]).unwrap();
        assert!(n > 0);
        file.flush().unwrap();
        left = &left[n..];
    }
    assert_eq!(decrypt(&[&pw()], &file.finish().unwrap()).unwrap(), text);
}

/// A source that fails, and a sink that takes everything and can't pass it on.
struct Broken;

impl Read for Broken {
    fn read(&mut self, _: &mut [u8]) -> io::Result<usize> {
        Err(ErrorKind::BrokenPipe.into())
    }
}

impl Write for Broken {
    fn write(&mut self, bytes: &[u8]) -> io::Result<usize> {
        Ok(bytes.len())
    }

    fn flush(&mut self) -> io::Result<()> {
        Err(ErrorKind::BrokenPipe.into())
    }
}

/// A file isn't whole if its sink can't pass it on, and a source that fails isn't a cut file.
#[test]
fn failures_are_reported() {
    let data = sealed(&text_of(131_072));
    let mut file = Encryptor::new(&[&pw()]).wrap(Broken).unwrap();
    file.write_all(b"text").unwrap();
    let mut errors = vec![file.flush().unwrap_err(), file.finish().map(drop).unwrap_err()];
    let file = Encryptor::new(&[&pw()]).wrap(Broken).unwrap();
    errors.push(file.finish().map(drop).unwrap_err());
    for end in [0, 30, data.len() - 65_552, data.len() - 100, data.len()] {
        errors.push(open((&data[..end]).chain(Broken)).map(read_all).map_or_else(
            |error| error,
            |(text, done)| {
                assert!(text_of(131_072).starts_with(&text));
                done.unwrap_err()
            },
        ));
    }
    for error in errors {
        assert_eq!(error.kind(), ErrorKind::BrokenPipe);
    }
}

/// What is consumed beyond the buffer is its end.
#[test]
fn consumes_no_more_than_there_is() {
    let data = sealed(&text_of(100));
    let mut file = open(&data[..]).unwrap();
    file.read_exact(&mut [0; 9]).unwrap();
    file.consume(usize::MAX);
    assert!(file.fill_buf().unwrap().is_empty());
}

/// A sink that says only once that it lost what it took, as a disk does.
struct Once(bool);

impl Write for Once {
    fn write(&mut self, bytes: &[u8]) -> io::Result<usize> {
        Ok(bytes.len())
    }

    fn flush(&mut self) -> io::Result<()> {
        match std::mem::take(&mut self.0) {
            true => Err(io::Error::other("lost")),
            false => Ok(()),
        }
    }
}

/// A flush that failed counts as a write that failed.
#[test]
fn a_flush_that_failed() {
    let mut file = Encryptor::new(&[&pw()]).wrap(Once(true)).unwrap();
    file.write_all(b"text").unwrap();
    assert_eq!(file.flush().unwrap_err().to_string(), "lost");
    for later in [file.write_all(b"x"), file.flush(), file.finish().map(drop)] {
        assert!(later.unwrap_err().to_string().ends_with("failed: lost"));
    }
}
