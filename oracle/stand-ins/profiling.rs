//! Stand-in for the `profiling` crate: scopes do nothing.
#[macro_export]
macro_rules! scope {
    ($($t:tt)*) => {};
}
