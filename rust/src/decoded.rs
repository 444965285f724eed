//! A V5 reply, as the caller decodes it.
use crate::answers::NtpLeapIndicator;
use crate::ffi;
use crate::time::{NtpDuration, NtpTimestamp, PollInterval};

/// What a group of extension fields says about the unique identifier of the request.
#[derive(Clone, Copy, Debug, Default, PartialEq, Eq, Hash)]
pub enum Uid {
    /// No field of that type is among them.
    #[default]
    Absent,
    /// Each such field starts with the identifier.
    Agree,
    /// One does not.
    Disagree,
}

/// Which kisses a V5 reply has (docs/EMBEDDING.md says when).
#[derive(Clone, Copy, Debug, Default, PartialEq, Eq, Hash)]
pub struct Kisses {
    /// Poll more slowly.
    pub rate: bool,
    /// Service is denied.
    pub deny: bool,
    /// Access is restricted; never given in V5.
    pub rstr: bool,
    /// The cookie cannot be used.
    pub ntsn: bool,
    /// Any kiss at all.
    pub any: bool,
}

/// A V5 reply, which the caller decodes (docs/EMBEDDING.md says what each field is).
#[derive(Clone, Copy, Debug, PartialEq, Eq)]
pub struct DecodedReply {
    /// The leap indicator.
    pub leap: NtpLeapIndicator,
    /// Whether it is a response, not a request.
    pub response: bool,
    /// The source's stratum.
    pub stratum: u8,
    /// The poll interval that it asks for.
    pub poll: PollInterval,
    /// Its clock's precision.
    pub precision: i8,
    /// Its root delay.
    pub root_delay: NtpDuration,
    /// Its root dispersion.
    pub root_dispersion: NtpDuration,
    /// T2.
    pub receive: NtpTimestamp,
    /// T3.
    pub transmit: NtpTimestamp,
    /// The client cookie, which answers the request's 64 bits.
    pub cookie: u64,
    /// The kisses.
    pub kisses: Kisses,
    /// The identifier among the authenticated fields.
    pub authenticated: Uid,
    /// The identifier among the encrypted fields.
    pub encrypted: Uid,
    /// The identifier among the other fields.
    pub untrusted: Uid,
}

impl DecodedReply {
    pub(crate) fn numbers(&self) -> ffi::Decoded {
        ffi::Decoded {
            rootdelay: self.root_delay.to_bits(),
            rootdisp: self.root_dispersion.to_bits(),
            receive: self.receive.to_bits(),
            transmit: self.transmit.to_bits(),
            cookie: self.cookie,
            mode: self.response.into(),
            leap: self.leap.code(),
            stratum: self.stratum,
            poll: self.poll.as_log(),
            precision: self.precision,
            rate: self.kisses.rate.into(),
            deny: self.kisses.deny.into(),
            rstr: self.kisses.rstr.into(),
            ntsn: self.kisses.ntsn.into(),
            any: self.kisses.any.into(),
            authenticated: self.authenticated as u8,
            encrypted: self.encrypted as u8,
            untrusted: self.untrusted as u8,
        }
    }
}
