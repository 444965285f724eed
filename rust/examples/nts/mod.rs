//! What a connector with NTS does besides calling the association (RFC 8915): it keeps the keys and cookies of a key exchange, appends the authenticator (the
//! 0404 field) to a request, and opens those of a reply. The cipher, AES-SIV-CMAC-256, is nettle's; without the feature `nettle` there is none.
use reckonstile::{Opened, ShortScratch};
use std::error::Error;

#[cfg(not(feature = "nettle"))]
mod cipher {
    pub struct Siv;
    pub fn new(_: &[u8; 32]) -> Result<Siv, &'static str> {
        Err("built without the feature `nettle`: there is no cipher for --nts")
    }
    impl Siv {
        pub fn seal(&self, _: &[u8], _: &[u8], _: &[u8]) -> Vec<u8> {
            Vec::new()
        }
    }
    impl reckonstile::Open for Siv {
        type Error = ();
        fn open(&mut self, _: &[u8], _: &[u8], _: &[u8], _: &mut [u8]) -> Result<usize, ()> {
            Err(())
        }
    }
}

#[cfg(feature = "nettle")]
mod cipher {
    /// nettle's context for AES-SIV-CMAC-256: 384 bytes of numbers in nettle 3.8, here with room to spare.
    #[repr(C, align(16))]
    pub struct Siv([u8; 1024]);

    #[link(name = "nettle", kind = "static")]
    extern "C" {
        fn nettle_siv_cmac_aes128_set_key(context: *mut Siv, key: *const u8);
        fn nettle_siv_cmac_aes128_encrypt_message(
            context: *const Siv,
            nonce_len: usize,
            nonce: *const u8,
            data_len: usize,
            data: *const u8,
            out_len: usize,
            out: *mut u8,
            text: *const u8,
        );
        fn nettle_siv_cmac_aes128_decrypt_message(
            context: *const Siv,
            nonce_len: usize,
            nonce: *const u8,
            data_len: usize,
            data: *const u8,
            out_len: usize,
            out: *mut u8,
            sealed: *const u8,
        ) -> i32;
    }

    const TAG: usize = 16;

    pub fn new(key: &[u8; 32]) -> Result<Siv, &'static str> {
        let mut context = Siv([0; 1024]);
        // SAFETY: the context is larger and no less aligned than nettle's; the key has the 32 bytes that are read.
        unsafe { nettle_siv_cmac_aes128_set_key(&mut context, key.as_ptr()) };
        Ok(context)
    }

    impl Siv {
        /// The tag and the encrypted text, over `data`.
        pub fn seal(&self, data: &[u8], nonce: &[u8], text: &[u8]) -> Vec<u8> {
            let mut out = vec![0; TAG + text.len()];
            // SAFETY: each pointer has the bytes of its length, and `out` those of the tag and the text.
            unsafe {
                nettle_siv_cmac_aes128_encrypt_message(
                    self,
                    nonce.len(),
                    nonce.as_ptr(),
                    data.len(),
                    data.as_ptr(),
                    out.len(),
                    out.as_mut_ptr(),
                    text.as_ptr(),
                );
            }
            out
        }
    }

    /// Why a field does not open.
    pub enum Sealed {
        /// It is shorter than a tag.
        Short,
        /// Its tag is wrong.
        Tag,
    }

    impl reckonstile::Open for Siv {
        type Error = Sealed;

        fn open(&mut self, associated: &[u8], nonce: &[u8], ciphertext: &[u8], decrypted: &mut [u8]) -> Result<usize, Sealed> {
            let length = ciphertext.len().checked_sub(TAG).ok_or(Sealed::Short)?;
            let out = decrypted.get_mut(..length).ok_or(Sealed::Short)?;
            // SAFETY: each pointer has the bytes of its length, and `ciphertext` a tag more than `out`.
            let right = unsafe {
                nettle_siv_cmac_aes128_decrypt_message(
                    self,
                    nonce.len(),
                    nonce.as_ptr(),
                    associated.len(),
                    associated.as_ptr(),
                    out.len(),
                    out.as_mut_ptr(),
                    ciphertext.as_ptr(),
                )
            };
            if right == 1 {
                Ok(length)
            } else {
                Err(Sealed::Tag)
            }
        }
    }
}

/// The keys and first cookies of a key exchange.
pub struct Nts {
    to_server: cipher::Siv,
    to_client: cipher::Siv,
    cookies: Vec<Vec<u8>>,
}

fn bytes(text: &str) -> Option<Vec<u8>> {
    (0..text.len()).step_by(2).map(|i| u8::from_str_radix(text.get(i..i + 2)?, 16).ok()).collect()
}

impl Nts {
    /// Reads the file of a key exchange.
    pub fn read(path: &str) -> Result<Self, Box<dyn Error>> {
        let (mut keys, mut cookies) = ([None, None], Vec::new());
        for line in std::fs::read_to_string(path)?.lines() {
            let (name, value) = line.split_once(' ').ok_or("a line of the keys is a name and a value")?;
            let value = bytes(value).ok_or("a value of the keys is hexadecimal")?;
            match name {
                "to-server" => keys[0] = Some(value),
                "to-client" => keys[1] = Some(value),
                "cookie" => cookies.push(value),
                _ => return Err(format!("the keys have no {name}").into()),
            }
        }
        let key = |found: Option<Vec<u8>>| <[u8; 32]>::try_from(found.unwrap_or_default()).map_err(|_| "a key has 32 bytes");
        let [to_server, to_client] = keys;
        Ok(Nts { to_server: cipher::new(&key(to_server)?)?, to_client: cipher::new(&key(to_client)?)?, cookies })
    }

    /// The cookies as the list that a new association takes.
    pub fn list(&self) -> Vec<u8> {
        let mut out = vec![0; self.cookies.iter().map(|cookie| 4 + cookie.len()).sum()];
        let length = reckonstile::cookie_list(self.cookies.iter().map(Vec::as_slice), &mut out).unwrap_or(0);
        out.truncate(length);
        out
    }

    /// Appends the authenticator to a request, over all of it.
    pub fn seal(&self, packet: &mut Vec<u8>, nonce: [u8; 16]) -> Result<(), Box<dyn Error>> {
        let sealed = self.to_server.seal(packet, &nonce, &[]);
        let length = 4 + 4 + nonce.len() + sealed.len();
        for number in [0x0404, length, nonce.len(), sealed.len()] {
            packet.extend(u16::try_from(number)?.to_be_bytes());
        }
        packet.extend(nonce);
        packet.extend(sealed);
        Ok(())
    }

    /// Opens a reply. The two buffers are as long as the packet.
    pub fn open<'a>(
        &mut self,
        packet: &'a [u8],
        decrypted: &'a mut [u8],
        list: &'a mut [u8],
    ) -> Result<Opened<'a>, ShortScratch> {
        Opened::walk(packet, &mut self.to_client, decrypted, list)
    }
}
