//! Uses: rand_chacha rand_core
//!
//! The generator's blocks alone, 64 KiB of them: what ChaCha20 in `age_cipher` can't pass. The
//! generator computes four at a time, so one word is drawn of each four.
#![tactic(auto)]

use rand_chacha::ChaCha20Rng;
use rand_core::SeedableRng;
use rand_core::utils::NextWord;
use std::io;
use std::rt::Clock;
use std::time::Instant;

const SIZE: usize = 65_536;

fn nanoseconds(rt: &impl Clock, start: Instant) -> io::Result<u64> {
    Ok(u64::try_from(start.elapsed(rt)?.as_nanos()).unwrap_or(u64::MAX))
}

#[inline(never)]
fn blocks(key: &[u8; 32]) -> u32 {
    let mut generator = ChaCha20Rng::from_seed(*key);
    let mut sum = 0;
    for i in 0..SIZE / 256 {
        generator.set_word_pos(64 * i as u128);
        sum ^= generator.next_word();
    }
    sum
}

fn main(rt: HostRuntime) -> io::Result<()> {
    let mut least = u64::MAX;
    let mut seen = 0u32;
    for turn in 0..400u32 {
        let key = [(turn & 255) as u8; 32];
        let start = Instant::now(&rt)?;
        seen ^= blocks(&key);
        least = least.min(nanoseconds(&rt, start)?);
    }
    println!(rt; "the generator's blocks, 64 KiB\t{least}\t{SIZE}")?;
    println!(rt; "{seen}")
}
