//! Tells which case was running when a side dies or doesn't finish: what is compared is machine code.
use std::sync::atomic::{AtomicU64, Ordering::Relaxed};

static SEED: AtomicU64 = AtomicU64::new(0);
static INDEX: AtomicU64 = AtomicU64::new(0);

/// Seconds that 256 cases may take.
const PATIENCE: u32 = 60;

extern "C" {
    fn signal(number: i32, handler: extern "C" fn(i32)) -> usize;
    fn alarm(seconds: u32) -> u32;
    fn _exit(status: i32) -> !;
}

extern "C" fn told(number: i32) {
    let what = if number == 14 { "didn't finish" } else { "died" };
    eprintln!("{what} (signal {number}) at case {} of seed {}", INDEX.load(Relaxed), SEED.load(Relaxed));
    unsafe { _exit(1) }
}

pub fn start(seed: u64) {
    SEED.store(seed, Relaxed);
    // abort, bus error, arithmetic, illegal instruction, memory, alarm
    for number in [6, 7, 8, 4, 11, 14] {
        unsafe { signal(number, told) };
    }
}

pub fn at(index: u64) {
    INDEX.store(index, Relaxed);
    if index % 256 == 0 {
        unsafe { alarm(PATIENCE) };
    }
}
