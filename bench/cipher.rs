//! Uses: age_cipher
//!
//! ChaCha20, Poly1305 and their AEAD over texts of 64 KiB, in place.
//!
//! What was tried: the generator asks at every word whether its blocks are used up. `draw_blocks` draws eight words at a
//! time, so that the compiler can answer. A plain loop over 64 words took a quarter more time; `chunks_exact_mut(8)`, or
//! four calls for sixteen words each, a fifth. A new generator for every four blocks, an array of words by value, and an
//! exclusive or of eight words at a time were no better. Poly1305 waits for one product after another, so the two halves
//! of a part of 4,096 bytes or more are summed at once, which takes two thirds of the time. Two blocks in a turn with the
//! multiplier's square, which isn't clamped, were no faster, nor were limbs of 44 bits, or three parts.
#![tactic(auto)]

ghost use Rattle.std.specs.Prelude.{◌≡◌, vec_len, IfOk};

use std::alloc::{AllocError, Global};
use std::io;
use std::rt::Clock;
use std::time::Instant;

const SIZE: usize = 65_536;

fn nanoseconds(rt: &impl Clock, start: Instant) -> io::Result<u64> {
    Ok(u64::try_from(start.elapsed(rt)?.as_nanos()).unwrap_or(u64::MAX))
}

fn filled(alloc: Global, byte: u8, n: usize) -> Result<Vec<u8>, AllocError>
    ensures { IfOk result (λ v. vec_len v ≡ n) }
{
    vec![in alloc; byte; n]
}

fn main(rt: HostRuntime) -> io::Result<()> {
    let key = [9; 32];
    let nonce = [5; 12];
    let mut text = filled(rt.alloc(), 7, SIZE)?;
    let mut block = filled(rt.alloc(), 7, SIZE + 16)?;
    let (mut stream, mut tag, mut seal, mut open) = (u64::MAX, u64::MAX, u64::MAX, u64::MAX);
    let mut seen = 0u8;
    for _turn in 0..400u32 {
        let start = Instant::now(&rt)?;
        age_cipher::xor_stream(&key, &nonce, 1, &mut text);
        stream = stream.min(nanoseconds(&rt, start)?);
        let start = Instant::now(&rt)?;
        seen ^= age_cipher::poly1305(&key, &[&text[..]])[0];
        tag = tag.min(nanoseconds(&rt, start)?);
        let start = Instant::now(&rt)?;
        age_cipher::seal_in_place(&key, &nonce, &[], &mut block);
        seal = seal.min(nanoseconds(&rt, start)?);
        let start = Instant::now(&rt)?;
        if age_cipher::open_in_place(&key, &nonce, &[], &mut block) {
            seen ^= 1;
        }
        open = open.min(nanoseconds(&rt, start)?);
        seen ^= text[0] ^ block[0];
    }
    println!(rt; "ChaCha20 over 64 KiB\t{stream}\t{SIZE}")?;
    println!(rt; "Poly1305 over 64 KiB\t{tag}\t{SIZE}")?;
    println!(rt; "sealing 64 KiB\t{seal}\t{SIZE}")?;
    println!(rt; "opening 64 KiB\t{open}\t{SIZE}")?;
    println!(rt; "{seen}")
}
