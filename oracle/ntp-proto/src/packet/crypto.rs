//! Stands for packet/crypto.rs: the traits, and one cipher that is none. It is a child of `packet`, so it also reads
//! that module's private fields for the driver.
use super::ExtensionField;
use crate::keyset::DecodedServerCookie;
use std::cell::{Cell, RefCell};

pub struct DecryptError;

pub struct EncryptResult {
    pub nonce_length: usize,
    pub ciphertext_length: usize,
}

pub trait Cipher: Sync + Send + 'static {
    /// The plaintext stands at the start of `buffer`; nonce and ciphertext take its place.
    fn encrypt(&self, buffer: &mut [u8], plaintext_length: usize, associated_data: &[u8]) -> std::io::Result<EncryptResult>;
    fn decrypt(&self, nonce: &[u8], ciphertext: &[u8], associated_data: &[u8]) -> Result<Vec<u8>, DecryptError>;
}

pub enum CipherHolder<'a> {
    DecodedServerCookie(DecodedServerCookie),
    Other(&'a dyn Cipher),
}

impl AsRef<dyn Cipher> for CipherHolder<'_> {
    fn as_ref(&self) -> &dyn Cipher {
        match self {
            CipherHolder::DecodedServerCookie(cookie) => cookie.0.as_ref(),
            CipherHolder::Other(cipher) => *cipher,
        }
    }
}

pub trait CipherProvider {
    fn get<'a>(&'a self, context: &[ExtensionField<'_>]) -> Option<CipherHolder<'a>>;
}

pub struct NoCipher;

impl CipherProvider for NoCipher {
    fn get<'a>(&'a self, _context: &[ExtensionField<'_>]) -> Option<CipherHolder<'a>> {
        None
    }
}

impl CipherProvider for Option<&dyn Cipher> {
    fn get<'a>(&'a self, _context: &[ExtensionField<'_>]) -> Option<CipherHolder<'a>> {
        self.map(CipherHolder::Other)
    }
}

thread_local! {
    static FAILS: Cell<bool> = const { Cell::new(false) };
    static IDLE: Cell<bool> = const { Cell::new(false) };
    static SEEN: RefCell<Vec<(usize, Option<Vec<u8>>)>> = const { RefCell::new(Vec::new()) };
}

/// Only named by packet/mod.rs.
pub struct AesSivCmac512;

/// Not AES: the plaintext itself behind a 16-byte check value (two FNV-1a runs) over nonce, associated data and
/// plaintext, so that any damage makes decryption fail. It bears this name because packet/mod.rs exports a fixed list.
pub struct AesSivCmac256;

impl AesSivCmac256 {
    /// From now on every decryption fails.
    pub fn force_fail(fail: bool) {
        FAILS.set(fail);
    }

    /// From now on no check value is made or looked at and nothing is noted: the cipher's own cost is the caller's.
    pub fn set_idle(idle: bool) {
        IDLE.set(idle);
    }

    /// Per decryption since the last call: the length of the associated data, which is where the 0404 field starts, and
    /// the plaintext if it succeeded.
    pub fn take_seen() -> Vec<(usize, Option<Vec<u8>>)> {
        SEEN.with(|s| std::mem::take(&mut *s.borrow_mut()))
    }

    pub fn tag(nonce: &[u8], aad: &[u8], plaintext: &[u8]) -> [u8; 16] {
        let mut out = [0; 16];
        for (half, start) in [(0, 0xcbf29ce484222325u64), (8, 0x9e3779b97f4a7c15)] {
            let mut h = start;
            for part in [nonce, aad, plaintext] {
                for b in part {
                    h = (h ^ *b as u64).wrapping_mul(0x100000001b3);
                }
                h = (h ^ part.len() as u64 ^ 0x5555).wrapping_mul(0x100000001b3);
            }
            out[half..half + 8].copy_from_slice(&h.to_be_bytes());
        }
        out
    }
}

impl Cipher for AesSivCmac256 {
    fn encrypt(&self, buffer: &mut [u8], plaintext_length: usize, associated_data: &[u8]) -> std::io::Result<EncryptResult> {
        if buffer.len() < plaintext_length + 32 {
            return Err(std::io::ErrorKind::WriteZero.into());
        }
        let nonce = [0x4e; 16];
        let t = if IDLE.get() { [0; 16] } else { Self::tag(&nonce, associated_data, &buffer[..plaintext_length]) };
        buffer.copy_within(..plaintext_length, 32);
        buffer[..16].copy_from_slice(&nonce);
        buffer[16..32].copy_from_slice(&t);
        Ok(EncryptResult { nonce_length: 16, ciphertext_length: plaintext_length + 16 })
    }

    fn decrypt(&self, nonce: &[u8], ciphertext: &[u8], associated_data: &[u8]) -> Result<Vec<u8>, DecryptError> {
        if IDLE.get() {
            return Ok(ciphertext[16..].to_vec());
        }
        let plain = (!FAILS.get() && ciphertext.len() >= 16)
            .then(|| ciphertext.split_at(16))
            .filter(|(t, p)| *t == Self::tag(nonce, associated_data, p))
            .map(|(_, p)| p.to_vec());
        SEEN.with(|s| s.borrow_mut().push((associated_data.len(), plain.clone())));
        plain.ok_or(DecryptError)
    }
}

impl super::RequestIdentifier {
    pub(crate) fn view(&self) -> (u64, Option<[u8; 32]>) {
        (self.expected_origin_timestamp.raw(), self.uid)
    }
    pub(crate) fn make(id: u64, uid: Option<[u8; 32]>) -> Self {
        Self { expected_origin_timestamp: crate::time_types::NtpTimestamp::of(id), uid }
    }
}

impl super::NtpPacket<'_> {
    /// Type and body of each field of a V4 packet, in its order, but for the 0404 fields, which the crate does not keep.
    pub fn fields(&self) -> Vec<(u16, Vec<u8>)> {
        let told = |field: &ExtensionField<'_>| match field {
            ExtensionField::UniqueIdentifier(body) => (0x0104, body.to_vec()),
            ExtensionField::NtsCookie(body) => (0x0204, body.to_vec()),
            ExtensionField::NtsCookiePlaceholder { cookie_length } => (0x0304, vec![0; *cookie_length as usize]),
            ExtensionField::Unknown { type_id, data } => (*type_id, data.to_vec()),
            _ => panic!("a field that a V4 packet does not have"),
        };
        self.efdata.authenticated.iter().chain(&self.efdata.untrusted).map(told).collect()
    }

    /// Authenticated, encrypted, untrusted: none if no uid is there, else whether all agree.
    pub fn uid_groups(&self, uid: &[u8; 32]) -> [Option<bool>; 3] {
        [&self.efdata.authenticated, &self.efdata.encrypted, &self.efdata.untrusted]
            .map(|g| super::check_uid_extensionfield(g.iter(), uid))
    }
}
