//! A case's time.

use std::time::{Duration, Instant};

/// How many blocks a pass handles.
pub const PASS_BLOCKS: u32 = 65536;

const LEAST: Duration = Duration::from_millis(200);

/// Makes a pass, and then times passes until so much time is over. Prints the case, the blocks, the nanoseconds.
pub fn time(case: &str, mut pass: impl FnMut()) {
    pass();
    let start = Instant::now();
    let mut passes = 0;
    let mut time = Duration::ZERO;
    while time < LEAST {
        pass();
        passes += 1;
        time = start.elapsed();
    }
    let blocks = passes * u64::from(PASS_BLOCKS);
    println!("{case} {blocks} {}", time.as_nanos());
}
