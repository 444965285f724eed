//! Stands for tracing: each event leaves its source line and text behind, so that the driver can tell which branch of
//! `handle_incoming` was taken without touching the file; nothing is formatted or evaluated.
pub mod oracle {
    use std::cell::Cell;
    thread_local! {
        static LAST: Cell<(u32, &'static str)> = const { Cell::new((0, "")) };
    }
    pub fn record(line: u32, text: &'static str) {
        LAST.with(|c| c.set((line, text)));
    }
    /// Line and tokens of the last event since the last call.
    pub fn take() -> (u32, &'static str) {
        LAST.with(|c| c.replace((0, "")))
    }
}
#[macro_export]
macro_rules! trace { ($($t:tt)*) => { $crate::oracle::record(line!(), stringify!($($t)*)) } }
#[macro_export]
macro_rules! debug { ($($t:tt)*) => { $crate::oracle::record(line!(), stringify!($($t)*)) } }
#[macro_export]
macro_rules! warn { ($($t:tt)*) => { $crate::oracle::record(line!(), stringify!($($t)*)) } }
