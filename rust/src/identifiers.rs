//! Identifiers of sources, by which loops are detected.

/// An identifier of a source: for an IPv4 address its four bytes, for an IPv6 address the first four bytes of its MD5 digest (RFC 5905, section 7.3).
///
/// The caller computes MD5, as every digest and cipher; docs/EMBEDDING.md has an example, and `examples/connector.rs` is a client that does it.
///
/// ```
/// use reckonstile::ReferenceId;
/// assert_eq!(ReferenceId::from(core::net::Ipv4Addr::LOCALHOST), ReferenceId::from_bits(0x7f000001));
/// // Of 2001:db8::1: `printf '\x20\x01\x0d\xb8\0\0\0\0\0\0\0\0\0\0\0\x01' | md5sum` begins with 39ab9b37.
/// assert_eq!(ReferenceId::from_digest([0x39, 0xab, 0x9b, 0x37]), ReferenceId::from_bits(0x39ab9b37));
/// ```
#[repr(transparent)]
#[derive(Clone, Copy, Debug, Default, PartialEq, Eq, Hash)]
pub struct ReferenceId(u32);

impl ReferenceId {
    /// From the 32 bits of the wire format.
    #[must_use]
    pub const fn from_bits(bits: u32) -> Self {
        ReferenceId(bits)
    }

    /// As the 32 bits of the wire format.
    #[must_use]
    pub const fn to_bits(self) -> u32 {
        self.0
    }

    /// Of an IPv6 address: from the first four bytes of the MD5 digest of its 16 bytes.
    #[must_use]
    pub const fn from_digest(first_four: [u8; 4]) -> Self {
        ReferenceId(u32::from_be_bytes(first_four))
    }
}

impl From<core::net::Ipv4Addr> for ReferenceId {
    fn from(address: core::net::Ipv4Addr) -> Self {
        ReferenceId(u32::from_be_bytes(address.octets()))
    }
}
