//! A reply of V3 or V4, opened by the caller's cipher: the authenticated end, the decrypted bytes and the new cookies (docs/EMBEDDING.md).
use crate::ffi;
use core::fmt;

/// Where the fields of a packet start, and the end of one that has none.
const HEADER: usize = 48;

/// The type of an authenticator field.
const AUTHENTICATOR: u32 = 0x0404;

/// The caller's cipher, under the key from the server to us (RFC 8915: AES-SIV).
///
/// ```
/// use reckonstile::{Open, Opened};
/// /// A stand-in for a cipher: a tag of one byte, and the text as it is.
/// struct Tag(u8);
/// impl Open for Tag {
///     type Error = ();
///     fn open(&mut self, _associated: &[u8], _nonce: &[u8], ciphertext: &[u8], decrypted: &mut [u8]) -> Result<usize, ()> {
///         let (tag, text) = ciphertext.split_first().ok_or(())?;
///         if *tag != self.0 {
///             return Err(());
///         }
///         decrypted.get_mut(..text.len()).ok_or(())?.copy_from_slice(text);
///         Ok(text.len())
///     }
/// }
/// // A header, and a 0404 field with a nonce of 12 bytes and a ciphertext of 9: the tag, and a cookie field with the cookie 1234.
/// let mut packet = [0; 48 + 36];
/// packet[0] = 0x24;
/// packet[48..56].copy_from_slice(&[4, 4, 0, 36, 0, 12, 0, 9]);
/// packet[68..77].copy_from_slice(&[7, 2, 4, 0, 8, 1, 2, 3, 4]);
/// let (mut decrypted, mut list) = ([0; 84], [0; 84]);
/// let opened = Opened::walk(&packet, &mut Tag(7), &mut decrypted, &mut list).unwrap();
/// assert_eq!((opened.end(), opened.list()), (48, &[0xc0, 0x0e, 0, 4, 1, 2, 3, 4][..]));
/// // Under another key it does not open: the end is 0, to which the association answers 1.
/// assert_eq!(Opened::walk(&packet, &mut Tag(8), &mut decrypted, &mut list).unwrap().end(), 0);
/// ```
pub trait Open {
    /// Why something does not open. Whatever it is, the reply is rejected (1); to log it, keep it in the cipher.
    type Error;

    /// Opens one field: checks it over the `associated` bytes and the `nonce`, decrypts `ciphertext` into `decrypted`, and returns how many bytes it wrote.
    /// `decrypted` is at least as long as the ciphertext.
    ///
    /// # Errors
    /// If the check fails. What is in `decrypted` is then ignored.
    fn open(&mut self, associated: &[u8], nonce: &[u8], ciphertext: &[u8], decrypted: &mut [u8]) -> Result<usize, Self::Error>;
}

/// A reply of V3 or V4, with the part of it that is authenticated, for [`Association::reply`](crate::Association::reply).
///
/// With NTS [`Opened::walk`] makes it, without NTS [`Opened::plain`]. Nothing else does, so nobody passes the authenticated end by hand: fields before it are
/// believed, and with an end that is too late anybody's packet is measured.
#[derive(Clone, Copy, PartialEq, Eq)]
#[must_use]
pub struct Opened<'a> {
    packet: &'a [u8],
    end: usize,
    decrypted: &'a [u8],
    list: &'a [u8],
    fault: Option<OpenFault>,
}

impl fmt::Debug for Opened<'_> {
    /// Without the decrypted bytes, among which are cookies.
    fn fmt(&self, f: &mut fmt::Formatter<'_>) -> fmt::Result {
        let (decrypted, list) = (self.decrypted.len(), self.list.len());
        f.debug_struct("Opened")
            .field("packet", &self.packet)
            .field("end", &self.end)
            .field("decrypted", &format_args!("{decrypted} bytes"))
            .field("list", &format_args!("{list} bytes"))
            .field("fault", &self.fault)
            .finish()
    }
}

/// Why a packet's authenticated end is 0, and the answer to it 1: for a log.
#[derive(Clone, Copy, Debug, PartialEq, Eq, Hash)]
#[non_exhaustive]
pub enum OpenFault {
    /// A field is broken.
    Field,
    /// An authenticator has nonce and ciphertext that do not fit into it.
    Authenticator,
    /// An authenticator does not open: it is of another key, or the packet was changed.
    Cipher,
    /// The decrypted bytes are not whole fields.
    Decrypted,
    /// There is an authenticator without NTS.
    WithoutNts,
}

impl fmt::Display for OpenFault {
    fn fmt(&self, f: &mut fmt::Formatter<'_>) -> fmt::Result {
        f.write_str(match self {
            OpenFault::Field => "a field of the packet is broken",
            OpenFault::Authenticator => "nonce and ciphertext do not fit into the authenticator",
            OpenFault::Cipher => "the authenticator does not open",
            OpenFault::Decrypted => "the decrypted bytes are not whole fields",
            OpenFault::WithoutNts => "the packet has an authenticator, and there is no NTS",
        })
    }
}

impl core::error::Error for OpenFault {}

/// A buffer of [`Opened::walk`] is shorter than the packet; nothing was opened.
#[derive(Clone, Copy, Debug, PartialEq, Eq, Hash)]
pub struct ShortScratch;

impl fmt::Display for ShortScratch {
    fn fmt(&self, f: &mut fmt::Formatter<'_>) -> fmt::Result {
        f.write_str("a buffer is shorter than the packet: lend two that are as long")
    }
}

impl core::error::Error for ShortScratch {}

/// A field of a packet: where its head starts, its type and its body.
struct Field<'a> {
    at: usize,
    kind: u32,
    body: &'a [u8],
}

/// The fields of a packet, as the association reads them: none if it is not of V4.
struct Fields<'a> {
    packet: &'a [u8],
    at: Option<usize>,
}

fn fields(packet: &[u8]) -> Fields<'_> {
    let is_v4 = packet.len() >= HEADER && packet[0] >> 3 & 7 == 4;
    Fields { packet, at: is_v4.then_some(HEADER) }
}

impl<'a> Iterator for Fields<'a> {
    type Item = Result<Field<'a>, OpenFault>;

    fn next(&mut self) -> Option<Self::Item> {
        let at = self.at.take()?;
        let said = ffi::field_at(self.packet, at);
        if said.number != 0 {
            return Some(Err(OpenFault::Field));
        }
        if said.found == 0 {
            return None;
        }
        let (body, next) = (ffi::size(said.body), ffi::size(said.next));
        // A library that named bytes outside the packet would be of another revision.
        let Some(body) = self.packet.get(body..next) else { return Some(Err(OpenFault::Field)) };
        self.at = Some(next);
        Some(Ok(Field { at, kind: said.kind, body }))
    }
}

/// The nonce and the ciphertext of an authenticator: two lengths, then each, the nonce filled up to a multiple of four (RFC 8915, section 5.6).
fn sealed(body: &[u8]) -> Option<(&[u8], &[u8])> {
    let (lengths, rest) = body.split_at_checked(4)?;
    let nonce = usize::from(u16::from_be_bytes([lengths[0], lengths[1]]));
    let start = nonce.next_multiple_of(4);
    let end = start + usize::from(u16::from_be_bytes([lengths[2], lengths[3]]));
    Some((rest.get(..nonce)?, rest.get(start..end)?))
}

impl<'a> Opened<'a> {
    /// A reply to an association without NTS. A packet that has an authenticator is rejected (1).
    ///
    /// ```
    /// use reckonstile::{OpenFault, Opened};
    /// let mut packet = [0; 48 + 28];
    /// packet[0] = 0x24;
    /// packet[48..52].copy_from_slice(&[4, 4, 0, 28]);
    /// assert_eq!((Opened::plain(&packet[..48]).end(), Opened::plain(&packet[..48]).fault()), (48, None));
    /// assert_eq!((Opened::plain(&packet).end(), Opened::plain(&packet).fault()), (0, Some(OpenFault::WithoutNts)));
    /// ```
    pub fn plain(packet: &'a [u8]) -> Self {
        let fault = fields(packet).find_map(|field| match field {
            Err(fault) => Some(fault),
            Ok(field) => (field.kind == AUTHENTICATOR).then_some(OpenFault::WithoutNts),
        });
        Opened { end: if fault.is_some() { 0 } else { HEADER }, packet, decrypted: &[], list: &[], fault }
    }

    /// A reply to an association with NTS: opens each authenticator in order, and finds the new cookies in the decrypted bytes. Lend two buffers, each at
    /// least as long as the packet. If an authenticator does not open or is broken, or its decrypted bytes are broken, the packet is rejected (1).
    ///
    /// # Errors
    /// [`ShortScratch`], if a buffer is shorter than the packet.
    pub fn walk<C: Open + ?Sized>(
        packet: &'a [u8],
        cipher: &mut C,
        decrypted: &'a mut [u8],
        list: &'a mut [u8],
    ) -> Result<Self, ShortScratch> {
        if decrypted.len() < packet.len() || list.len() < packet.len() {
            return Err(ShortScratch);
        }
        Ok(match Self::opened(packet, cipher, decrypted, list) {
            Ok((end, length, listed)) => {
                Opened { packet, end, decrypted: &decrypted[..length], list: &list[..listed], fault: None }
            }
            Err(fault) => Opened { packet, end: 0, decrypted: &[], list: &[], fault: Some(fault) },
        })
    }

    /// The end, and how many bytes of the two buffers are written.
    fn opened<C: Open + ?Sized>(
        packet: &[u8],
        cipher: &mut C,
        decrypted: &mut [u8],
        list: &mut [u8],
    ) -> Result<(usize, usize, usize), OpenFault> {
        let (mut end, mut length) = (HEADER, 0);
        for field in fields(packet) {
            let field = field?;
            if field.kind != AUTHENTICATOR {
                continue;
            }
            let (nonce, ciphertext) = sealed(field.body).ok_or(OpenFault::Authenticator)?;
            let rest = &mut decrypted[length..];
            let wrote = cipher.open(&packet[..field.at], nonce, ciphertext, rest).map_err(|_| OpenFault::Cipher)?;
            // Its fields must be whole by themselves, before they are appended to those of the authenticator before: joined, two broken ones may be one field.
            let text = rest.get(..wrote).ok_or(OpenFault::Cipher)?;
            if ffi::collect(text, list).number != 0 {
                return Err(OpenFault::Decrypted);
            }
            (end, length) = (field.at, length + wrote);
        }
        let said = ffi::collect(&decrypted[..length], list);
        if said.number != 0 {
            return Err(OpenFault::Decrypted);
        }
        Ok((end, length, ffi::size(said.length)))
    }

    /// A call of a log, replayed: its authenticated end is that of the log. A client has no use for it.
    #[doc(hidden)]
    pub const fn replayed(packet: &'a [u8], end: usize, decrypted: &'a [u8], list: &'a [u8]) -> Self {
        Opened { packet, end, decrypted, list, fault: None }
    }

    /// The datagram.
    #[must_use]
    pub const fn packet(&self) -> &'a [u8] {
        self.packet
    }

    /// The authenticated end: where the last authenticator starts, 48 if there is none, 0 if the packet is rejected.
    #[must_use]
    pub const fn end(&self) -> usize {
        self.end
    }

    /// The decrypted bytes of the authenticators, one after the other.
    #[must_use]
    pub const fn decrypted(&self) -> &'a [u8] {
        self.decrypted
    }

    /// The new cookies, as [`collect`](crate::collect) writes them.
    #[must_use]
    pub const fn list(&self) -> &'a [u8] {
        self.list
    }

    /// Why the packet is rejected, if it is: for a log.
    #[must_use]
    pub const fn fault(&self) -> Option<OpenFault> {
        self.fault
    }
}
