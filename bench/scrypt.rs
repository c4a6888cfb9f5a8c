//! Uses: age_scrypt
//!
//! A key at the work factors 14 and 18. The look-up writes the exclusive or of two blocks, and BlockMix reads it again: to
//! join them would need a second BlockMix, and wasn't done.
#![tactic(auto)]

ghost use Rattle.std.specs.Prelude.{◌≤◌};

use age_scrypt::Steps;
use std::io;
use std::rt::Clock;
use std::time::Instant;

// The least nanoseconds of some turns.
fn least(rt: &(impl Clock + AllocGlobal), log: u32, turns: u32) -> io::Result<u64>
    requires least { 1 ≤ log }
    requires most { log ≤ 22 }
{
    let mut best = u64::MAX;
    let mut steps = Steps::new();
    for _turn in 0..turns {
        let start = Instant::now(rt)?;
        let key = age_scrypt::derive(rt.alloc(), b"pleaseletmein", b"SodiumChloride", log, &mut steps);
        let took = u64::try_from(start.elapsed(rt)?.as_nanos()).unwrap_or(u64::MAX);
        // a key that wasn't made shows as a time that none takes
        best = best.min(if key.is_ok() { took } else { 1 });
    }
    Ok(best)
}

fn main(rt: HostRuntime) -> io::Result<()> {
    let usual = least(&rt, 18, 3)?;
    println!(rt; "work factor 18\t{usual}")?;
    let low = least(&rt, 14, 10)?;
    println!(rt; "work factor 14\t{low}")
}
