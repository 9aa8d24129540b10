//! Stand-in for the `log` crate: nothing is logged.
#[macro_export]
macro_rules! warn {
    ($($t:tt)*) => {{}};
}
#[macro_export]
macro_rules! debug {
    ($($t:tt)*) => {{}};
}
