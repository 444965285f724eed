//! Stands for tls_utils.rs: lib.rs makes this module public, so the driver's doors into the crate are here.
pub use crate::clock::{set_now, set_window};
pub use crate::packet::{AesSivCmac256 as FakeCipher, NtpHeader};
pub use crate::source::inspect::*;
