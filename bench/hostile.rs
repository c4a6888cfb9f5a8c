//! Uses: age_stanza
//!
//! The parser alone, over a header from standard input, which it is fed in pieces of 4 KiB. It is
//! to show the memory of headers that were made to take much of it: bench/run gives it each of them.
#![tactic(auto)]

use age_stanza::{HeadParser, HeadStep, Header};
use std::io;
use std::io::Read;

const MOST_PIECES: u32 = 512;

/// The header that standard input begins with.
fn header(rt: &HostRuntime) -> io::Result<Option<Header>> {
    let mut parser = HeadParser::new(rt.alloc());
    let mut input = rt.stdin();
    let mut room = [0; 4096];
    for _piece in 0..MOST_PIECES {
        let count = input.read(&mut room)?;
        if count == 0 || !parser.is_open() {
            return Ok(None);
        }
        match parser.feed(&room[..count]) {
            Ok(HeadStep::More) => {}
            Ok(HeadStep::Ready { taken: _, header }) => return Ok(Some(header)),
            Err(_) => return Ok(None),
        }
    }
    Ok(None)
}

fn main(rt: HostRuntime) -> io::Result<()> {
    if let Some(header) = header(&rt)? {
        println!(rt; "{} stanzas", header.stanzas.len())?;
    }
    Ok(())
}
