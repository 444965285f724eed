//! Stands for the md5 crate: RFC 1321, under the two names that identifiers.rs uses.
pub struct Md5;
pub trait Digest {
    fn digest(data: impl AsRef<[u8]>) -> [u8; 16];
}
const S: [u32; 16] = [7, 12, 17, 22, 5, 9, 14, 20, 4, 11, 16, 23, 6, 10, 15, 21];
impl Digest for Md5 {
    fn digest(data: impl AsRef<[u8]>) -> [u8; 16] {
        let data = data.as_ref();
        let mut m = data.to_vec();
        m.push(0x80);
        while m.len() % 64 != 56 {
            m.push(0);
        }
        m.extend((data.len() as u64 * 8).to_le_bytes());
        let mut h: [u32; 4] = [0x67452301, 0xefcdab89, 0x98badcfe, 0x10325476];
        for block in m.chunks(64) {
            let w: Vec<u32> = block.chunks(4).map(|c| u32::from_le_bytes(c.try_into().unwrap())).collect();
            let [mut a, mut b, mut c, mut d] = h;
            for i in 0..64 {
                let (f, g) = match i / 16 {
                    0 => ((b & c) | (!b & d), i),
                    1 => ((d & b) | (!d & c), (5 * i + 1) % 16),
                    2 => (b ^ c ^ d, (3 * i + 5) % 16),
                    _ => (c ^ (b | !d), (7 * i) % 16),
                };
                let k = (((i + 1) as f64).sin().abs() * 4294967296.0) as u32;
                let t = a.wrapping_add(f).wrapping_add(k).wrapping_add(w[g]);
                a = d;
                d = c;
                c = b;
                b = b.wrapping_add(t.rotate_left(S[(i / 16) * 4 + i % 4]));
            }
            for (x, y) in h.iter_mut().zip([a, b, c, d]) {
                *x = x.wrapping_add(y);
            }
        }
        let mut out = [0; 16];
        for (o, x) in out.chunks_mut(4).zip(h) {
            o.copy_from_slice(&x.to_le_bytes());
        }
        out
    }
}
#[test]
fn rfc1321() {
    let hex = |s: &str| Md5::digest(s).iter().map(|b| format!("{b:02x}")).collect::<String>();
    assert_eq!(hex(""), "d41d8cd98f00b204e9800998ecf8427e");
    assert_eq!(hex("abc"), "900150983cd24fb0d6963f7d28e17f72");
    assert_eq!(
        hex("12345678901234567890123456789012345678901234567890123456789012345678901234567890"),
        "57edf4a22be3c955ac49da2e2107b67a"
    );
}
