//! An NTP client association for Rust: that of the crate `ntp-proto` 1.9.0, ported to Rattle and proved there to follow its rules. Here it is linked as a
//! static library.
//!
//! The proof ends at the library's calls. This crate wraps them; it is tested, not proved, and adds no behaviour. It has names and types for the numbers, and
//! passes only what the library's contract allows. docs/EMBEDDING.md has the order of calls, their arguments, and what to do on each number;
//! `examples/connector.rs` is a whole client.
//!
//! The crate has no dependencies. Without the feature `std` it is `no_std` and allocates nothing; `std` (on by default) adds conversions from and to
//! `std::time`, and associations on the heap. It links the library that `RECKONSTILE_LIB` names; else, in a release, the one beside this crate, and in the
//! repository the one that is made for the target (docs/BOARDS.md lists the targets). A library of another revision, a changed one and a stale one are
//! rejected.
#![no_std]
#![deny(missing_docs, unsafe_code)]
#![warn(unsafe_op_in_unsafe_fn)]

#[cfg(feature = "std")]
extern crate std;

mod answers;
mod association;
mod decoded;
mod ffi;
mod identifiers;
pub mod numbers;
mod opened;
mod settings;
mod time;
mod tools;

pub use answers::{
    AcceptRefused, Action, CheckRefused, CollectRefused, CompareRefused, Dropped, LoadRefused, LookRefused, Measurement,
    MeteredRefused, NewRefused, NtpLeapIndicator, PlanRefused, Poll, ReplyRefused, RequestRefused, SalvageRefused, SaveRefused,
    SendKind, TimerRefused,
};
pub use association::{
    collect, cookie_list, revision, write_request, Bloom, Source, Times, View, COOKIE_BYTES, FILE_BYTES, REQUEST_BYTES,
};
pub use decoded::{DecodedReply, Kisses, Uid};
pub use ffi::{Association, REVISION};
pub use identifiers::ReferenceId;
pub use opened::{Open, OpenFault, Opened, ShortScratch};
pub use settings::{ProtocolVersion, Settings, SettingsFault};
pub use time::{NtpDuration, NtpInstant, NtpTimestamp, PollInterval, PollIntervalLimits};
pub use tools::{
    check_calendar, compare, plan_calendar, salvage, Difference, Differences, Salvaged, ENTRIES, LIST_BYTES, NO_COOKIE,
};

/// The parts of a [`View`].
pub mod record {
    pub use crate::ffi::{Settings, State};
}
