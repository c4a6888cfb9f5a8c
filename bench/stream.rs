//! Uses: age_keys age_stream
//!
//! Sealer and opener alone: a text of 16 MiB in pieces of 64 KiB, and its payload in pieces of one
//! block. What is lent is looked at and not copied.
#![tactic(auto)]

ghost use Rattle.std.specs.Prelude.{◌≡◌, vec_len, IfOk};

use age_keys::{FileKey, PayloadKey, payload_key};
use age_stream::{BLOCK_LEN, CHUNK_LEN, Opener, Sealer, Status, seal_all};
use std::alloc::{AllocError, Global};
use std::io;
use std::rt::Clock;
use std::time::Instant;

const SIZE: usize = 16_777_216;

fn nanoseconds(rt: &impl Clock, start: Instant) -> io::Result<u64> {
    Ok(u64::try_from(start.elapsed(rt)?.as_nanos()).unwrap_or(u64::MAX))
}

fn filled(alloc: Global, byte: u8, n: usize) -> Result<Vec<u8>, AllocError>
    ensures { IfOk result (λ v. vec_len v ≡ n) }
{
    vec![in alloc; byte; n]
}

// The bytes of all blocks of a text.
fn sealed(key: &PayloadKey, text: &[u8]) -> Option<usize> {
    let mut sealer = Sealer::<PayloadKey, BLOCK_LEN>::new(key);
    let mut blocks = 0usize;
    for piece in text.chunks(CHUNK_LEN) {
        let mut at = 0usize;
        for _turn in 0..2u8 {
            if sealer.is_finished() || piece.len() < at {
                return None;
            }
            let step = sealer.feed(&piece[at..]).ok()?;
            at = at.saturating_add(step.taken);
            blocks = blocks.saturating_add(step.chunk.map_or(0, |it| it.len()));
        }
    }
    if sealer.is_finished() {
        return None;
    }
    Some(blocks.saturating_add(sealer.finish().ok()?.len()))
}

// The bytes of all texts of a payload.
fn opened(key: &PayloadKey, payload: &[u8]) -> Option<usize> {
    let mut opener = Opener::<PayloadKey, BLOCK_LEN>::new(key);
    let mut texts = 0usize;
    for piece in payload.chunks(BLOCK_LEN) {
        let step = opener.feed(piece).ok()?;
        texts = texts.saturating_add(step.chunk.map_or(0, |it| it.len()));
    }
    texts = texts.saturating_add(opener.end().ok()?.len());
    if opener.status() == Status::Done { Some(texts) } else { None }
}

fn main(rt: HostRuntime) -> io::Result<()> {
    let key = payload_key(&FileKey::new([9; 16]), &[5; 16]);
    let text = filled(rt.alloc(), 7, SIZE)?;
    let Ok(payload) = seal_all::<PayloadKey, BLOCK_LEN>(rt.alloc(), &key, &text) else {
        return println!(rt; "not sealed");
    };
    let (mut seal, mut open) = (u64::MAX, u64::MAX);
    for _turn in 0..12u32 {
        let start = Instant::now(&rt)?;
        let blocks = sealed(&key, &text);
        seal = seal.min(nanoseconds(&rt, start)?);
        let start = Instant::now(&rt)?;
        let texts = opened(&key, &payload);
        open = open.min(nanoseconds(&rt, start)?);
        if blocks != Some(payload.len()) || texts != Some(SIZE) {
            return println!(rt; "another length");
        }
    }
    println!(rt; "Sealer, 16 MiB\t{seal}\t{SIZE}")?;
    println!(rt; "Opener, 16 MiB\t{open}\t{SIZE}")
}
