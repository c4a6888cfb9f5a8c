//! A reader whose source can seek.

mod common;

use agefile::Reader;
use common::*;
use std::cell::{Cell, RefCell};
use std::io::{self, Cursor, Read, Seek, SeekFrom};
use std::rc::Rc;

#[test]
fn reads_at_any_place() {
    for len in LENGTHS {
        let text = text_of(len);
        let mut under = Cursor::new([b"in front".to_vec(), sealed(&text)].concat());
        under.set_position(8);
        let (mut file, mut memory) = (open(under).unwrap(), Cursor::new(text));
        let mut random = Random(len as u64);
        for turn in 0..300 {
            let to = match turn % 4 {
                0 => SeekFrom::Start(random.below(len + 10) as u64),
                1 => SeekFrom::End(-(random.below(len + 1) as i64)),
                2 => SeekFrom::Current(random.below(5_000) as i64 - 2_500),
                _ => SeekFrom::Current(0),
            };
            let (got, want) = (file.seek(to), memory.seek(to));
            assert_eq!(got.map_err(|it| it.kind()), want.map_err(|it| it.kind()), "{to:?}");
            let most = random.below(90_000) as u64;
            let (mut got, mut want) = (Vec::new(), Vec::new());
            file.by_ref().take(most).read_to_end(&mut got).unwrap();
            Read::by_ref(&mut memory).take(most).read_to_end(&mut want).unwrap();
            assert!(got == want, "{len} {to:?} {most}");
            assert_eq!(file.stream_position().unwrap(), memory.position());
        }
        assert_eq!(file.size().unwrap(), len as u64);
        assert_eq!(file.stream_position().unwrap(), memory.position());
    }
}

/// A place at the end of a chunk, at the end of the text, and beyond it: there is nothing to read, and
/// nothing wrong.
#[test]
fn places_at_and_beyond_the_end() {
    for len in LENGTHS {
        let text = text_of(len);
        let mut file = open(Cursor::new(sealed(&text))).unwrap();
        let far = [len, len + 1, len + CHUNK, 253_138, 284_780, usize::MAX / 2, usize::MAX];
        for place in (0..=len).step_by(CHUNK).chain(far.into_iter().filter(|it| *it >= len)) {
            assert_eq!(file.seek(SeekFrom::Start(place as u64)).unwrap(), place as u64);
            let (got, done) = read_all(&mut file);
            assert!(done.is_ok() && got == text[place.min(len)..], "{place} of {len}: {done:?}");
            assert_eq!(file.stream_position().unwrap(), place.max(len) as u64);
        }
    }
}

/// Whatever was read and sought before, what comes is the text from the place on.
#[test]
#[allow(clippy::seek_from_current)] // (stream_position tells the place, and doesn't seek)
fn goes_on_after_a_fault() {
    let text = text_of(200_000);
    let mut data = sealed(&text);
    let begin = payload_of(&data, text.len());
    data[begin + BLOCK + 100] ^= 1;
    let mut file = open(Cursor::new(&data)).unwrap();
    for (place, wrong) in
        [(0, false), (70_000, true), (140_000, false), (65_536, true), (199_990, false)]
    {
        let mut into = [0; 10];
        file.seek(SeekFrom::Start(place)).unwrap();
        match file.read_exact(&mut into) {
            Ok(()) => assert!(!wrong && into == text[place as usize..][..10]),
            Err(error) => assert!(wrong && number(Err::<(), _>(error)) == (17, Some(1)), "{place}"),
        }
    }
    // (a place before the beginning is refused, and moves nothing)
    let place = file.stream_position().unwrap();
    assert!(file.seek(SeekFrom::Current(-300_000)).is_err());
    assert_eq!(file.stream_position().unwrap(), place);
    // a source that was repaired: a seek to the same place reads it again
    let under = Shared(Rc::new(RefCell::new(Cursor::new(data))));
    let mut file = open(under.clone()).unwrap();
    file.seek(SeekFrom::Start(65_536)).unwrap();
    assert!(file.read(&mut [0; 1]).is_err() && file.read(&mut [0; 1]).is_err());
    under.0.borrow_mut().get_mut()[begin + BLOCK + 100] ^= 1;
    assert_eq!(file.seek(SeekFrom::Current(0)).unwrap(), 65_536);
    assert!(read_all(file).0 == text[65_536..]);
}

/// A file whose end is damaged is read in order up to its fault; its size, and a place from its end,
/// have that fault, and the reader stays where it is.
#[test]
fn an_end_that_is_damaged() {
    let text = text_of(200_000);
    let whole = sealed(&text);
    let mut changed = whole.clone();
    *changed.last_mut().unwrap() ^= 1;
    for data in [&changed[..], &whole[..whole.len() - 1], &[&whole[..], b"0"].concat()] {
        let mut file = open(Cursor::new(data)).unwrap();
        let mut begun = vec![0; 100];
        file.read_exact(&mut begun).unwrap();
        assert_eq!(number(file.size()), (17, Some(3)));
        assert_eq!(number(file.seek(SeekFrom::End(-5))), (17, Some(3)));
        let (rest, done) = read_all(&mut file);
        assert!([begun, rest].concat() == text[..196_608]);
        assert_eq!(number(done), (17, Some(3)));
    }
    let mut file = open(Cursor::new(&whole[..whole.len() - 3_392 - 16])).unwrap();
    assert_eq!(number(file.size()), (20, Some(3)));
}

/// A file that others share, and cut.
#[derive(Clone)]
struct Shared(Rc<RefCell<Cursor<Vec<u8>>>>);

impl Read for Shared {
    fn read(&mut self, into: &mut [u8]) -> io::Result<usize> {
        self.0.borrow_mut().read(into)
    }
}

impl Seek for Shared {
    fn seek(&mut self, to: SeekFrom) -> io::Result<u64> {
        self.0.borrow_mut().seek(to)
    }
}

#[test]
fn a_file_that_shrinks() {
    let text = text_of(200_000);
    let data = sealed(&text);
    let begin = payload_of(&data, text.len());
    let under = Shared(Rc::new(RefCell::new(Cursor::new(data))));
    let mut file = open(under.clone()).unwrap();
    assert_eq!(file.size().unwrap(), 200_000);
    under.0.borrow_mut().get_mut().truncate(begin + BLOCK + 1_000);
    file.rewind().unwrap();
    let (got, done) = read_all(&mut file);
    assert!(got == text[..65_536]);
    assert_eq!(number(done), (17, Some(1)));
    under.0.borrow_mut().get_mut().truncate(begin + BLOCK);
    file.rewind().unwrap();
    assert_eq!(number(read_all(&mut file).1), (20, Some(1)));
}

/// A source that counts what is read of it.
struct Counted<'a>(Cursor<&'a [u8]>, &'a Cell<usize>);

impl Read for Counted<'_> {
    fn read(&mut self, room: &mut [u8]) -> io::Result<usize> {
        let n = self.0.read(room)?;
        self.1.set(self.1.get() + n);
        Ok(n)
    }
}

impl Seek for Counted<'_> {
    fn seek(&mut self, to: SeekFrom) -> io::Result<u64> {
        self.0.seek(to)
    }
}

/// A source that can seek is read where it is asked for, without being asked to.
#[test]
fn reads_little_of_a_large_file() {
    let text = text_of(10_000_000);
    let (data, count) = (sealed(&text), Cell::new(0));
    let mut file: Reader<_> = open(Counted(Cursor::new(&data), &count)).unwrap();
    for place in [9_999_000, 5_000_000, 5_000_100, 5_000_050, 65_536, 1] {
        let mut into = [0; 500];
        file.seek(SeekFrom::Start(place)).unwrap();
        file.read_exact(&mut into).unwrap();
        assert!(into[..] == text[place as usize..][..500]);
    }
    file.seek(SeekFrom::End(-10)).unwrap();
    assert!(count.get() < 12 * BLOCK, "{}", count.get());
}

/// A file that says it is longer than it is.
struct Longer(Cursor<Vec<u8>>);

impl Read for Longer {
    fn read(&mut self, into: &mut [u8]) -> io::Result<usize> {
        self.0.read(into)
    }
}

impl Seek for Longer {
    fn seek(&mut self, to: SeekFrom) -> io::Result<u64> {
        match to {
            SeekFrom::End(_) => Ok(self.0.get_ref().len() as u64 + 1),
            to => self.0.seek(to),
        }
    }
}

#[test]
fn a_length_that_is_wrong() {
    let text = text_of(200_000);
    let mut file = open(Longer(Cursor::new(sealed(&text)))).unwrap();
    assert_eq!(file.size().unwrap(), 200_000);
    file.seek(SeekFrom::Start(100_000)).unwrap();
    let (got, done) = read_all(file);
    assert!(done.is_ok() && got == text[100_000..]);
}
