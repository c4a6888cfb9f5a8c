//! One file that several threads decrypt.

mod common;

use agefile::{decrypt_to, Fault, MAX_WORKERS};
use common::*;
use std::io::{self, Cursor, ErrorKind};
use std::sync::atomic::{AtomicUsize, Ordering};
use std::sync::Mutex;

const LENGTH: usize = 9 * 65_536 + 1_000;

/// What is written at places: how often each byte was, and the bytes.
struct Memory(Mutex<(Vec<u8>, Vec<u8>)>);

impl Memory {
    fn new(len: usize) -> Memory {
        Memory(Mutex::new((vec![0; len], vec![0; len])))
    }

    fn put(&self, text: &[u8], at: u64) -> io::Result<()> {
        let (times, held) = &mut *self.0.lock().unwrap();
        let place = at as usize..at as usize + text.len();
        times[place.clone()].iter_mut().for_each(|it| *it += 1);
        held[place].copy_from_slice(text);
        Ok(())
    }
}

#[test]
fn gives_the_text() {
    for len in [0, 1, 65_535, 65_536, 65_537, 131_072, 200_000, LENGTH] {
        let text = text_of(len);
        let data = sealed(&text);
        for workers in [1, 2, 3, 7, MAX_WORKERS] {
            let out = Memory::new(len);
            let source = || Ok(Cursor::new(&data));
            let size = decrypt_to(|text, at| out.put(text, at), source, &[&pw()], workers).unwrap();
            let (times, held) = out.0.into_inner().unwrap();
            assert_eq!((size, held == text), (len as u64, true), "{len}, {workers}");
            assert!(times.iter().all(|&it| it == 1));
        }
    }
}

/// The fault of the first chunk that has one, whoever finds it. That of the last one comes first.
#[test]
fn reports_the_first_fault() {
    let data = sealed(&text_of(LENGTH));
    let begin = data.len() - LENGTH - 10 * 16;
    let chunks: [&[usize]; 7] = [&[0], &[8], &[3, 4], &[7, 2], &[6, 5, 1], &[9], &[9, 4]];
    for chunks in chunks {
        let mut bad = data.clone();
        chunks.iter().for_each(|it| bad[begin + it * BLOCK + 5] ^= 1);
        let first =
            *chunks.iter().max().filter(|&&it| it == 9).unwrap_or(chunks.iter().min().unwrap());
        for workers in [1, 2, 5] {
            let source = || Ok(Cursor::new(&bad));
            let error = decrypt_to(|_, _| Ok(()), source, &[&pw()], workers).unwrap_err();
            assert_eq!(number(Err::<(), _>(error)), (17, Some(first as u64)));
        }
    }
    for bad in [&data[..data.len() - 5], &data[..begin + 4 * BLOCK], b"x\n"] {
        let error = decrypt_to(|_, _| Ok(()), || Ok(Cursor::new(bad)), &[&pw()], 4).unwrap_err();
        assert!(Fault::of(&error).is_some());
    }
}

/// A sink or a source that fails, a source that is another file or shorter the next time, no worker.
#[test]
fn reports_what_fails() {
    let data = sealed(&text_of(LENGTH));
    let full = |_: &[u8], _: u64| Err(ErrorKind::WriteZero.into());
    let whole = || Ok(Cursor::new(&data[..]));
    let error = decrypt_to(full, whole, &[&pw()], 4).unwrap_err();
    assert_eq!(error.kind(), ErrorKind::WriteZero);
    let error = decrypt_to(|_, _| Ok(()), whole, &[&pw()], 0).unwrap_err();
    assert_eq!(error.kind(), ErrorKind::InvalidInput);
    let other = sealed(&text_of(LENGTH));
    let (times, later) = (AtomicUsize::new(0), Mutex::new(&other[..]));
    let changing = || match times.fetch_add(1, Ordering::Relaxed) {
        0 => whole(),
        _ => Ok(Cursor::new(*later.lock().unwrap())),
    };
    let error = decrypt_to(|_, _| Ok(()), changing, &[&pw()], 4).unwrap_err();
    assert_eq!(number(Err::<(), _>(error)).0, 17);
    *later.lock().unwrap() = &data[..data.len() - BLOCK];
    times.store(0, Ordering::Relaxed);
    let error = decrypt_to(|_, _| Ok(()), changing, &[&pw()], 4).unwrap_err();
    assert_eq!(number(Err::<(), _>(error)).0, 17);
    let fails = || match times.fetch_add(1, Ordering::Relaxed) {
        0 => whole(),
        _ => Err(ErrorKind::NotConnected.into()),
    };
    times.store(0, Ordering::Relaxed);
    let error = decrypt_to(|_, _| Ok(()), fails, &[&pw()], 4).unwrap_err();
    assert_eq!(error.kind(), ErrorKind::NotConnected);
}

/// A chunk goes on if one after it failed before: the fault of the first is reported.
#[test]
fn goes_on_before_a_fault() {
    let mut data = sealed(&text_of(LENGTH));
    let begin = data.len() - LENGTH - 10 * 16;
    [1, 6].iter().for_each(|it| data[begin + it * BLOCK + 5] ^= 1);
    let out = |_: &[u8], at| {
        if at == 0 {
            std::thread::sleep(std::time::Duration::from_millis(300));
        }
        Ok(())
    };
    let error = decrypt_to(out, || Ok(Cursor::new(&data)), &[&pw()], 2).unwrap_err();
    assert_eq!(number(Err::<(), _>(error)), (17, Some(1)));
    let late = |_: &[u8], at| {
        if at == 0 {
            std::thread::sleep(std::time::Duration::from_millis(300));
            return Err(ErrorKind::WriteZero.into());
        }
        Ok(())
    };
    let error = decrypt_to(late, || Ok(Cursor::new(&data)), &[&pw()], 2).unwrap_err();
    assert_eq!(error.kind(), ErrorKind::WriteZero);
}

/// What another thread does once this one has begun: so slowly that its end has seconds to get out.
fn go_on_slowly(begun: &AtomicUsize, written: &AtomicUsize) {
    while begun.load(Ordering::Relaxed) == 0 {
        std::thread::sleep(std::time::Duration::from_millis(1));
    }
    std::thread::sleep(std::time::Duration::from_millis(20));
    written.fetch_add(1, Ordering::Relaxed);
}

/// Threads stop after a chunk that failed: they write a few at most, of thousands.
#[test]
fn stops_after_a_fault() {
    const MANY: usize = 1_000;
    let data = sealed(&vec![0; MANY * 65_536]);
    let (written, begun) = (AtomicUsize::new(0), AtomicUsize::new(0));
    let out = |_: &[u8], at: u64| {
        if at == 0 {
            begun.store(1, Ordering::Relaxed);
            return Err(ErrorKind::WriteZero.into());
        }
        go_on_slowly(&begun, &written);
        Ok(())
    };
    let error = decrypt_to(out, || Ok(Cursor::new(&data)), &[&pw()], 2).unwrap_err();
    assert_eq!(error.kind(), ErrorKind::WriteZero);
    assert!(written.into_inner() < MANY / 4);
}

#[test]
fn refuses_other_numbers_of_workers() {
    let data = sealed(b"text");
    for workers in [0, MAX_WORKERS + 1, 1 << 50, usize::MAX] {
        let error =
            decrypt_to(|_, _| Ok(()), || Ok(Cursor::new(&data)), &[&pw()], workers).unwrap_err();
        assert_eq!(error.kind(), ErrorKind::InvalidInput);
        assert_eq!(error.to_string(), "workers must be 1 to 64 (255 Misused)");
    }
}

/// They stop after one that panicked, too.
#[test]
fn stops_after_a_panic() {
    const MANY: usize = 1_000;
    let data = sealed(&vec![0; MANY * 65_536]);
    let (written, begun) = (AtomicUsize::new(0), AtomicUsize::new(0));
    let out = |_: &[u8], at: u64| {
        if at == 0 {
            begun.store(1, Ordering::Relaxed);
            panic!("the first piece");
        }
        go_on_slowly(&begun, &written);
        Ok(())
    };
    let all =
        std::panic::AssertUnwindSafe(|| decrypt_to(out, || Ok(Cursor::new(&data)), &[&pw()], 2));
    assert!(std::panic::catch_unwind(all).is_err());
    assert!(written.load(Ordering::Relaxed) < MANY / 4);
}
