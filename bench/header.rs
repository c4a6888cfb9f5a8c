//! Uses: age_stanza
//!
//! Headers of nearly 1 MiB, fed to the parser byte by byte and in pieces of 64 KiB: one long argument, 170,000 stanzas,
//! and one long body.
#![tactic(auto)]

use age_stanza::{HeadParser, HeadStep};
use std::alloc::{AllocError, Global};
use std::io;
use std::rt::Clock;
use std::time::Instant;

const END: &str = "--- AAAAAAAAAAAAAAAAAAAAAAAAAAAAAAAAAAAAAAAAAAA\n";

fn nanoseconds(rt: &impl Clock, start: Instant) -> io::Result<u64> {
    Ok(u64::try_from(start.elapsed(rt)?.as_nanos()).unwrap_or(u64::MAX))
}

/// A header of some text that is repeated, between two others.
fn header_of(alloc: Global, front: &str, middle: &str, times: u32, back: &str) -> Result<String, AllocError> {
    let mut text = String::new(alloc);
    text.push_str("age-encryption.org/v1\n")?;
    text.push_str(front)?;
    for _time in 0..times {
        text.push_str(middle)?;
    }
    text.push_str(back)?;
    text.push_str(END)?;
    Ok(text)
}

/// The bytes of the header that a parser takes by pieces of some size.
fn taken_by(alloc: Global, bytes: &[u8], size: usize) -> usize {
    let mut parser = HeadParser::new(alloc);
    let mut whole = 0usize;
    for piece in bytes.chunks(size.max(1)) {
        if !parser.is_open() {
            return whole;
        }
        match parser.feed(piece) {
            Ok(HeadStep::More) => whole = whole.saturating_add(piece.len()),
            Ok(HeadStep::Ready { taken, header: _ }) => return whole.saturating_add(taken),
            Err(_) => return 0,
        }
    }
    0
}

fn see(rt: &impl Clock, alloc: Global, bytes: &[u8], size: usize) -> io::Result<(u64, usize)> {
    let mut least = u64::MAX;
    let mut taken = 0;
    for _turn in 0..3u32 {
        let start = Instant::now(rt)?;
        taken = taken_by(alloc, bytes, size);
        least = least.min(nanoseconds(rt, start)?);
    }
    Ok((least, taken))
}

fn main(rt: HostRuntime) -> io::Result<()> {
    let alloc = rt.alloc();
    let a64 = "AAAAAAAAAAAAAAAAAAAAAAAAAAAAAAAAAAAAAAAAAAAAAAAAAAAAAAAAAAAAAAAA\n";
    let argument = header_of(alloc, "-> ", "xxxxxxxxxx", 104_850, "\n\n")?;
    let stanzas = header_of(alloc, "", "-> x\n\n", 174_750, "")?;
    let body = header_of(alloc, "-> x\n", a64, 16_130, "\n")?;
    for (label, text) in [
        ("one argument", argument.as_str()),
        ("174,750 stanzas", stanzas.as_str()),
        ("one body", body.as_str()),
    ] {
        let bytes = text.as_bytes();
        let len = bytes.len();
        for size in [1usize, 65_536] {
            let (least, taken) = see(&rt, alloc, bytes, size)?;
            println!(rt; "{label}, by {size}\t{least}\t{len}")?;
            println!(rt; "{taken} of {len}")?;
        }
    }
    Ok(())
}
