//! The recorder: what the unchanged Rust asked of the stand-ins, in order. With `--cfg quiet` it records nothing.
use std::cell::RefCell;

#[derive(Clone, Copy, Debug, PartialEq, Eq, Default)]
pub enum Phase {
    #[default]
    Start,
    /// resolving ids, or checking, of entries
    Entries,
    /// resolving ids, or checking, of packages
    Packages,
}

#[derive(Clone, Debug, Default)]
pub struct Rec {
    // where the Rust is
    pub phase: Phase,
    pub entry: usize,
    pub geometry: usize, // only while resolving ids; while checking it is wgt::LEN_CALLS
    pub package: usize,
    pub slot: usize, // only while resolving ids
    // counts of calls
    pub entries_begun: usize,
    pub packages_begun: usize,
    pub instances_begun: usize, // in this package, after the custom data test
    pub blas_raw_calls: usize,
    pub tlas_raw_calls: usize,
    // what was asked for
    pub instance_bytes: usize,
    pub package_ranges: Vec<(usize, usize)>, // bytes made before and up to the end of each package
    pub inits: Vec<(usize, u64, u64)>,
    pub scratch_sizes: Vec<u64>,
    pub staging: Option<Vec<u8>>,
    pub copies: Vec<(usize, u64, u64, u64)>, // tlas, src_offset, dst_offset, size
    pub blas_builds: Vec<(usize, u64)>,
    pub tlas_builds: Vec<(usize, u64, u32)>, // id, offset, instance count
    pub compact: Vec<usize>,
}

thread_local! {
    static REC: RefCell<Rec> = RefCell::new(Rec::default());
}

#[inline(always)]
pub fn with(f: impl FnOnce(&mut Rec)) {
    #[cfg(not(quiet))]
    REC.with(|r| f(&mut r.borrow_mut()));
    #[cfg(quiet)]
    let _ = f;
}

pub fn reset() {
    #[cfg(not(quiet))]
    {
        wgt::LEN_CALLS.with(|c| c.set(0));
        wgt::ROUNDED.with(|c| c.set(false));
        with(|r| *r = Rec::default());
    }
}

/// What was recorded; the recorder is empty after it.
pub fn take() -> Rec {
    REC.with(|r| std::mem::take(&mut *r.borrow_mut()))
}
