//! Random files, damage, sources, pieces and places, compared with what the text says. It takes
//! `AGEFILE_SECONDS`, or 2, and begins with `AGEFILE_SEED`, or what the clock says.

mod common;

use agefile::{decrypt, decrypt_to, Decoder, Decryptor, Encryptor, Fault, FileKey, Identity};
use agefile::{Passphrase, Recipient, Stanza};
use common::*;
use std::io::{self, BufRead, Cursor, ErrorKind, Read, Seek, SeekFrom, Write};
use std::sync::Mutex;
use std::time::{Duration, Instant, SystemTime, UNIX_EPOCH};

fn of_env(name: &str) -> Option<u64> {
    std::env::var(name).ok()?.parse().ok()
}

#[test]
fn random_files() {
    let now = SystemTime::now().duration_since(UNIX_EPOCH).unwrap().as_nanos() as u64;
    let seed = of_env("AGEFILE_SEED").unwrap_or(now);
    let end = Instant::now() + Duration::from_secs(of_env("AGEFILE_SECONDS").unwrap_or(2));
    let mut count = 0;
    while Instant::now() < end {
        println!("AGEFILE_SEED={}", seed.wrapping_add(count));
        see_file(&mut Random(seed.wrapping_add(count)));
        count += 1;
    }
    println!("{count} files");
}

/// A recipient that remembers the file key.
struct Kept(Mutex<Option<FileKey>>);

impl Recipient for Kept {
    fn wrap_file_key(&self, file_key: &FileKey) -> io::Result<Vec<Stanza>> {
        *self.0.lock().unwrap() = Some(file_key.clone());
        Ok(vec![Stanza { tag: "kept".into(), args: Vec::new(), body: vec![1; 7] }])
    }
}

/// A length, often one near the end of a chunk.
fn length(random: &mut Random) -> usize {
    match random.below(3) {
        0 => random.below(300),
        1 => (random.below(5) * CHUNK + random.below(40)).saturating_sub(20),
        _ => random.below(300_000),
    }
}

/// A source that gives odd pieces, is interrupted, and fails at times.
struct Odd<R>(R, Random, bool);

impl<R: Read> Read for Odd<R> {
    fn read(&mut self, room: &mut [u8]) -> io::Result<usize> {
        match self.1.below(8) {
            0 => Err(ErrorKind::Interrupted.into()),
            1 if self.2 => Err(ErrorKind::TimedOut.into()),
            2 => self.0.read(&mut room[..1]),
            _ => {
                let most = 1 + self.1.below(room.len());
                self.0.read(&mut room[..most])
            }
        }
    }
}

impl<R: Seek> Seek for Odd<R> {
    fn seek(&mut self, to: SeekFrom) -> io::Result<u64> {
        self.0.seek(to)
    }
}

/// Writes a text in odd pieces.
fn written(random: &mut Random, text: &[u8], to: &dyn Recipient) -> Vec<u8> {
    let (mut writer, mut left) = (Encryptor::new(&[to]).wrap(Vec::new()).unwrap(), text);
    while !left.is_empty() {
        let most = left.len().min(1 + random.below(100_000));
        left = &left[writer.write(&left[..most]).unwrap()..];
        if random.below(4) == 0 {
            writer.flush().unwrap();
        }
    }
    writer.finish().unwrap()
}

/// What a file became: damaged, cut, appended to, with blocks in another order, or not.
fn damaged(random: &mut Random, file: &[u8], begin: usize) -> Vec<u8> {
    let (mut made, at) = (file.to_vec(), random.below(file.len()));
    match random.below(6) {
        0 => made[at] ^= 1 << random.below(8),
        1 => made.truncate(at),
        2 => made.truncate(begin + random.below(5) * BLOCK + random.below(20)),
        3 => made.extend((0..1 + random.below(20)).map(|it| it as u8)),
        4 if file.len() > begin + 2 * BLOCK => made[begin..begin + 2 * BLOCK].rotate_left(BLOCK),
        _ => {}
    }
    made
}

/// How much of the text comes out of what a file became, read from a place: to its end, or to the
/// chunk of a fault.
fn expected(file: &[u8], made: &[u8], begin: usize, len: usize, place: usize) -> (usize, bool) {
    let block = |it: &[u8], chunk: usize| {
        let at = it.len().min(begin + chunk * BLOCK);
        it[at..it.len().min(at + BLOCK)].to_vec()
    };
    let last = len.saturating_sub(1) / CHUNK;
    let first = (place.saturating_sub(1) / CHUNK).min(last);
    let wrong = (first..=last).find(|it| block(file, *it) != block(made, *it));
    match wrong {
        Some(chunk) => ((chunk * CHUNK).max(place.min(len)), false),
        None => (len, made.len() == file.len()),
    }
}

/// Reads on after errors of the source, in odd pieces, to the end or a fault.
fn read_on(random: &mut Random, reader: &mut impl BufRead) -> (Vec<u8>, Option<Fault>) {
    let (mut text, mut room) = (Vec::new(), vec![0; 1 + random.below(100_000)]);
    loop {
        let most = 1 + random.below(room.len());
        let some = match random.below(4) {
            0 => reader.fill_buf().map(|held| {
                let n = held.len().min(most);
                room[..n].copy_from_slice(&held[..n]);
                n
            }),
            _ => reader.read(&mut room[..most]).map(|n| n | 1 << 40),
        };
        match some {
            Ok(n) => {
                let count = n & !(1 << 40);
                text.extend_from_slice(&room[..count]);
                if n >> 40 == 0 {
                    reader.consume(count);
                }
                if count == 0 {
                    return (text, None);
                }
            }
            Err(error) if error.kind() == ErrorKind::TimedOut => {}
            Err(error) => return (text, Some(Fault::of(&error).unwrap())),
        }
    }
}

fn see_file(random: &mut Random) {
    let (text, kept, key) = (text_of(length(random)), Kept(Mutex::new(None)), pw().max_work(2));
    let by_key = random.below(2) == 0;
    let file = written(random, &text, if by_key { &kept } else { &key });
    let file_key = kept.0.into_inner().unwrap().unwrap_or(FileKey::new([0; 16]));
    let other = Passphrase::new("other");
    let own: &dyn Identity = if by_key { &file_key } else { &key };
    let ids: &[&dyn Identity] = if random.below(2) == 0 { &[own] } else { &[&other, own] };
    let begin = payload_of(&file, text.len());
    let made = damaged(random, &file, begin);
    if made.len() < begin || made[..begin] != file[..begin] {
        return see_header(ids, &made, begin);
    }
    let want = expected(&file, &made, begin, text.len(), 0);
    see_in_order(random, ids, &made, &text, want);
    for _ in 0..3 {
        let mut source = Cursor::new([b"in front".to_vec(), made.clone()].concat());
        source.set_position(8);
        let odd = Odd(source, Random(random.below(1 << 30) as u64), false);
        let mut reader = Decryptor::new(ids).read(odd).unwrap();
        for _ in 0..6 {
            let place = see_seek(random, &mut reader, text.len());
            let want = expected(&file, &made, begin, text.len(), place);
            let (got, fault) = match random.below(3) {
                0 => {
                    let most = random.below(70_000);
                    let mut got = Vec::new();
                    let done = reader.by_ref().take(most as u64).read_to_end(&mut got);
                    let all = &text[place.min(text.len())..want.0.max(place.min(text.len()))];
                    assert!(
                        all.starts_with(&got)
                            && (done.is_err() || got.len() == most.min(all.len()))
                    );
                    continue;
                }
                _ => read_on(random, &mut reader),
            };
            assert!(got == text[place.min(text.len())..want.0], "{place}");
            assert_eq!(fault.is_none(), want.1, "{place} {fault:?}");
        }
    }
}

/// Goes somewhere, and returns where that is.
fn see_seek(random: &mut Random, reader: &mut (impl Seek + BufRead), len: usize) -> usize {
    let at = reader.stream_position().unwrap() as i64;
    let place = match random.below(4) {
        0 => random.below(6) * CHUNK,
        1 => at as usize + random.below(100),
        _ => random.below(len + 100),
    };
    let to = match random.below(3) {
        0 => SeekFrom::Current(place as i64 - at),
        1 => SeekFrom::End(place as i64 - len as i64),
        _ => SeekFrom::Start(place as u64),
    };
    match reader.seek(to) {
        Ok(found) => assert_eq!(found, place as u64),
        // (a place from an end that isn't whole)
        Err(error) => {
            assert!(matches!(to, SeekFrom::End(_)) && Fault::of(&error).is_some(), "{error}");
            assert_eq!(reader.stream_position().unwrap(), at as u64);
            reader.seek(SeekFrom::Start(place as u64)).unwrap();
        }
    }
    place
}

/// A header, or the nonce after it, that was damaged or cut gives nothing, and says so.
fn see_header(ids: &[&dyn Identity], made: &[u8], begin: usize) {
    let all = |mut it: agefile::Reader<_>| it.read_to_end(&mut Vec::new());
    let odd = |piece| Pieces(made, piece, false);
    let faults = [1 << 20, 7].map(|it| fault(Decryptor::new(ids).read(odd(it)).and_then(all)));
    assert_eq!([fault(decrypt(ids, made)); 2], faults);
    let is_cut = made.len() < begin;
    assert!(is_cut <= matches!(faults[0], Fault::NotWhole { .. }), "{:?}", faults[0]);
}

/// All ways to read a file in order say the same.
fn see_in_order(
    random: &mut Random,
    ids: &[&dyn Identity],
    made: &[u8],
    text: &[u8],
    want: (usize, bool),
) {
    let odd = Odd(made, Random(random.below(1 << 30) as u64), true);
    let mut reader = loop {
        // (an error of the source while the header is read loses what was read)
        let begun = Odd(made, Random(random.below(1 << 30) as u64), false);
        if let Ok(reader) = Decryptor::new(ids).read(begun) {
            break reader;
        }
    };
    let (got, fault) = read_on(random, &mut reader);
    assert!(got == text[..want.0], "{} {want:?}", got.len());
    assert_eq!(fault.is_none(), want.1, "{fault:?}");
    if let Ok(mut reader) = Decryptor::new(ids).read(odd) {
        assert!(read_on(random, &mut reader) == (got.clone(), fault));
    }
    let (mut decoder, mut pushed, mut left) = (Decoder::new(ids), Vec::new(), made);
    let mut done = Ok(());
    while done.is_ok() && !left.is_empty() {
        let (piece, rest) = left.split_at(left.len().min(1 + random.below(200_000)));
        done = decoder.update(piece, &mut pushed);
        left = rest;
    }
    done = done.and_then(|()| decoder.finish(&mut pushed));
    assert!(pushed == got);
    assert_eq!(done.err().map(|it| Fault::of(&it)), fault.map(Some));
    let whole = decrypt(ids, made);
    assert!(whole.is_ok() == want.1 && whole.map_or(true, |it| it == text));
    let out = Mutex::new(vec![0; text.len()]);
    let write = |part: &[u8], at: u64| {
        out.lock().unwrap()[at as usize..][..part.len()].copy_from_slice(part);
        Ok(())
    };
    let size = decrypt_to(write, || Ok(Cursor::new(made)), ids, 1 + random.below(4));
    match size {
        Ok(size) => {
            assert!(want.1 && size == text.len() as u64 && out.into_inner().unwrap() == text)
        }
        Err(error) => assert!(!want.1 && Fault::of(&error).is_some(), "{error}"),
    }
}
