//! MD5 (RFC 1321), which a connector needs for one thing: the identifier of an IPv6 address. It is not secure, and nothing here needs it to be.
use reckonstile::ReferenceId;
use std::net::IpAddr;

/// How far each step of a round turns, four steps at a time.
const TURNS: [[u32; 4]; 4] = [[7, 12, 17, 22], [5, 9, 14, 20], [4, 11, 16, 23], [6, 10, 15, 21]];

/// One block of 64 bytes.
fn block(state: [u32; 4], bytes: &[u8; 64]) -> [u32; 4] {
    let word = |k: usize| u32::from_le_bytes([bytes[4 * k], bytes[4 * k + 1], bytes[4 * k + 2], bytes[4 * k + 3]]);
    let [mut a, mut b, mut c, mut d] = state;
    for step in 0..64 {
        let (mixed, place) = match step / 16 {
            0 => (b & c | !b & d, step),
            1 => (d & b | !d & c, 5 * step + 1),
            2 => (b ^ c ^ d, 3 * step + 5),
            _ => (c ^ (b | !d), 7 * step),
        };
        // RFC 1321, 3.4: the whole part of 2^32 times the sine of the step, counted from 1.
        let sine = (((step + 1) as f64).sin().abs() * 4_294_967_296.0) as u32;
        let sum = a.wrapping_add(mixed).wrapping_add(sine).wrapping_add(word(place % 16));
        (a, d, c) = (d, c, b);
        b = b.wrapping_add(sum.rotate_left(TURNS[step / 16][step % 4]));
    }
    [state[0].wrapping_add(a), state[1].wrapping_add(b), state[2].wrapping_add(c), state[3].wrapping_add(d)]
}

/// The digest of up to 55 bytes, which are one block.
fn digest(text: &[u8]) -> [u8; 16] {
    let mut bytes = [0; 64];
    bytes[..text.len()].copy_from_slice(text);
    bytes[text.len()] = 0x80;
    bytes[56..].copy_from_slice(&(8 * text.len() as u64).to_le_bytes());
    let state = block([0x6745_2301, 0xefcd_ab89, 0x98ba_dcfe, 0x1032_5476], &bytes);
    let mut out = [0; 16];
    for (place, word) in out.chunks_exact_mut(4).zip(state) {
        place.copy_from_slice(&word.to_le_bytes());
    }
    out
}

/// The identifier of an address: for IPv4 its four bytes, for IPv6 the first four bytes of its MD5 (RFC 5905, section 7.3). 2001:db8::1 is 39ab9b37.
pub fn identifier(address: IpAddr) -> ReferenceId {
    match address {
        IpAddr::V4(address) => ReferenceId::from(address),
        IpAddr::V6(address) => {
            let [a, b, c, d, ..] = digest(&address.octets());
            ReferenceId::from_digest([a, b, c, d])
        }
    }
}

#[cfg(test)]
mod tests {
    use super::{digest, identifier};

    /// RFC 1321, A.5: the test suite's texts that are one block.
    #[test]
    fn the_documents_digests() {
        let hex = |text: &str| digest(text.as_bytes()).map(|byte| format!("{byte:02x}")).concat();
        assert_eq!(hex(""), "d41d8cd98f00b204e9800998ecf8427e");
        assert_eq!(hex("a"), "0cc175b9c0f1b6a831c399e269772661");
        assert_eq!(hex("abc"), "900150983cd24fb0d6963f7d28e17f72");
        assert_eq!(hex("message digest"), "f96b697d7cb7938d525a2f31aaf161d0");
        assert_eq!(hex("abcdefghijklmnopqrstuvwxyz"), "c3fcd3d76192e4007dfb496cca67e13b");
    }

    /// docs/EMBEDDING.md: `openssl dgst -md5` of the address's 16 bytes.
    #[test]
    fn the_identifier_of_an_address() {
        assert_eq!(identifier("2001:db8::1".parse().unwrap()).to_bits(), 0x39ab_9b37);
        assert_eq!(identifier("::1".parse().unwrap()).to_bits(), 0xcf40_4dc8);
        assert_eq!(identifier("192.0.2.1".parse().unwrap()).to_bits(), 0xc000_0201);
    }
}
