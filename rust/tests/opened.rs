//! What is authenticated of a reply, held to docs/EMBEDDING.md: "end" and "Several 0404 fields". The cipher is a stand-in, whose tag is a sum over all that it is to vouch
//! for; `tests/live` has a real one.
use reckonstile::{cookie_list, Association, NtpInstant, NtpTimestamp, Open, OpenFault, Opened, PollInterval, ReplyRefused};
use reckonstile::{Settings, ShortScratch, Times, COOKIE_BYTES};

const UID: [u8; 32] = [0x5A; 32];

/// A sum under a key, which any change of a byte or of a length changes.
struct Sum(u8);

impl Sum {
    fn of(&self, parts: [&[u8]; 3]) -> u8 {
        parts
            .iter()
            .flat_map(|part| [&[part.len() as u8][..], part].concat())
            .fold(self.0, |sum, byte| sum.wrapping_mul(31).wrapping_add(byte))
    }

    fn seal(&self, associated: &[u8], nonce: &[u8], text: &[u8]) -> Vec<u8> {
        [&[self.of([associated, nonce, text])], text].concat()
    }
}

impl Open for Sum {
    type Error = &'static str;

    fn open(&mut self, associated: &[u8], nonce: &[u8], ciphertext: &[u8], decrypted: &mut [u8]) -> Result<usize, Self::Error> {
        let (tag, text) = ciphertext.split_first().ok_or("no tag")?;
        if *tag != self.of([associated, nonce, text]) {
            return Err("another tag");
        }
        decrypted[..text.len()].copy_from_slice(text);
        Ok(text.len())
    }
}

fn header() -> Vec<u8> {
    let mut packet = vec![0; 48];
    packet[..2].copy_from_slice(&[0x24, 2]);
    packet[31] = 1; // the request's id
    packet
}

fn field(kind: u16, body: &[u8]) -> Vec<u8> {
    let body = [body, &vec![0; body.len().next_multiple_of(4) - body.len()]].concat();
    [&kind.to_be_bytes()[..], &(4 + body.len() as u16).to_be_bytes(), &body].concat()
}

/// The packet with an authenticator behind it that seals it and the text.
fn sealed(packet: &[u8], key: u8, nonce: &[u8], text: &[u8]) -> Vec<u8> {
    let ciphertext = Sum(key).seal(packet, nonce, text);
    let mut body = [(nonce.len() as u16).to_be_bytes(), (ciphertext.len() as u16).to_be_bytes()].concat();
    body.extend(nonce);
    body.resize(body.len().next_multiple_of(4), 0);
    body.extend(ciphertext);
    body.resize(body.len().max(24), 0);
    [packet, &field(0x0404, &body)].concat()
}

/// End, decrypted bytes, list and fault.
type Told = (usize, Vec<u8>, Vec<u8>, Option<OpenFault>);

fn walked(packet: &[u8]) -> Told {
    let (mut decrypted, mut list) = (vec![0; packet.len()], vec![0; packet.len()]);
    let o = Opened::walk(packet, &mut Sum(7), &mut decrypted, &mut list).unwrap();
    assert_eq!(o.packet(), packet);
    (o.end(), o.decrypted().to_vec(), o.list().to_vec(), o.fault())
}

fn refused(fault: OpenFault) -> Told {
    (0, vec![], vec![], Some(fault))
}

#[test]
fn one_authenticator() {
    let packet = [header(), field(0x0104, &UID)].concat();
    let cookie = field(0x0204, b"cookie.1");
    let list = b"\xc0\x0e\0\x08cookie.1".to_vec();
    for nonce in [&[1u8; 16][..], &[1; 13], &[]] {
        let reply = sealed(&packet, 7, nonce, &cookie);
        assert_eq!(walked(&reply), (84, cookie.clone(), list.clone(), None));
        // Any byte of what it vouches for changed: it does not open, or it is no authenticator any more.
        for at in (1..48).chain(52..84) {
            let mut other = reply.clone();
            other[at] ^= 1;
            assert_eq!(walked(&other), refused(OpenFault::Cipher), "byte {at}");
        }
        // Under another key it does not open.
        assert_eq!(walked(&sealed(&packet, 8, nonce, &cookie)), refused(OpenFault::Cipher));
    }
    // What follows it is untrusted, and moves the end nowhere.
    let reply = [sealed(&packet, 7, &[1; 16], &cookie), field(0x0104, &UID)].concat();
    assert_eq!(walked(&reply), (84, cookie, list, None));
}

#[test]
fn no_authenticator() {
    let packet = [header(), field(0x0104, &UID)].concat();
    assert_eq!(walked(&packet), (48, vec![], vec![], None));
    assert_eq!((Opened::plain(&packet).end(), Opened::plain(&packet).fault()), (48, None));
    // V3 has no fields, whatever its bytes look like; what is no packet is left to the association.
    let mut old = sealed(&header(), 8, &[1; 16], b"");
    old[0] = 0x1c;
    assert_eq!((walked(&old).0, Opened::plain(&old).end()), (48, 48));
    assert_eq!((walked(&[]).0, Opened::plain(&[0x24; 47]).end()), (48, 48));
}

#[test]
fn an_authenticator_without_nts_is_refused() {
    let reply = sealed(&[header(), field(0x0104, &UID)].concat(), 7, &[1; 16], b"");
    assert_eq!((Opened::plain(&reply).end(), Opened::plain(&reply).fault()), (0, Some(OpenFault::WithoutNts)));
    let mut a = Association::<8>::new(&Settings::default(), &[]).unwrap().0;
    let _ = a.timer(NtpInstant::from_nanos(0), PollInterval::new(6), 1, [0; 32], &mut []).unwrap();
    assert_eq!(a.reply(&Opened::plain(&reply), times()), Err(ReplyRefused::Undecodable));
    assert!(a.reply(&Opened::plain(&header()), times()).is_ok());
}

#[test]
fn broken_ones() {
    let packet = header();
    // A field that runs past the end.
    assert_eq!(walked(&[&packet[..], &[1, 4, 0, 64], &[0; 28]].concat()), refused(OpenFault::Field));
    // Nonce and ciphertext that do not fit.
    for lengths in [[0, 21, 0, 0], [0, 0, 0, 21], [0, 16, 0, 5], [0, 17, 0, 1], [255, 255, 255, 255]] {
        let reply = [&packet[..], &field(0x0404, &[&lengths[..], &[0; 20]].concat())].concat();
        assert_eq!(walked(&reply), refused(OpenFault::Authenticator), "{lengths:?}");
    }
    // What was sealed is not whole fields.
    assert_eq!(walked(&sealed(&packet, 7, &[1; 16], &[2, 4, 0, 8, 1, 2, 3])), refused(OpenFault::Decrypted));
}

#[test]
fn several_authenticators() {
    let (one, two) = (field(0x0204, b"one."), field(0x0204, b"two."));
    let first = sealed(&header(), 7, &[1; 16], &one);
    let both = sealed(&first, 7, &[2; 16], &two);
    let list = b"\xc0\x0e\0\x04one.\xc0\x0e\0\x04two.".to_vec();
    assert_eq!(walked(&both), (first.len(), [one.clone(), two.clone()].concat(), list, None));
    // The second does not open: nothing of the packet counts.
    assert_eq!(walked(&sealed(&first, 8, &[2; 16], &two)), refused(OpenFault::Cipher));
    // docs/EMBEDDING.md: two that are broken or whole alone, and one cookie that no server sent when they are joined.
    let broken = sealed(&header(), 7, &[1; 16], &[2, 4, 0, 8]);
    assert_eq!(walked(&sealed(&broken, 7, &[2; 16], &[3, 4, 0, 4])), refused(OpenFault::Decrypted));
}

#[test]
fn a_short_buffer_is_told_before_anything_is_opened() {
    struct Never;
    impl Open for Never {
        type Error = ();
        fn open(&mut self, _: &[u8], _: &[u8], _: &[u8], _: &mut [u8]) -> Result<usize, ()> {
            panic!("opened")
        }
    }
    let reply = sealed(&header(), 7, &[1; 16], b"");
    let mut buffers = [vec![0; reply.len()], vec![0; reply.len() - 1]];
    let [long, short] = &mut buffers;
    assert_eq!(Opened::walk(&reply, &mut Never, long, short), Err(ShortScratch));
    assert_eq!(Opened::walk(&reply, &mut Never, short, long), Err(ShortScratch));
}

fn times() -> Times {
    Times { t1: NtpTimestamp::from_bits(0), t4: NtpTimestamp::from_bits(0), time: NtpInstant::from_nanos(1) }
}

#[test]
fn an_association_with_nts_measures_what_opens() {
    let mut list = [0; 12];
    let length = cookie_list([&b"cookie.0"[..]], &mut list).unwrap();
    let (mut a, _) = Association::<2>::new(&Settings { nts: true, ..Settings::default() }, &list[..length]).unwrap();
    let _ = a.timer(NtpInstant::from_nanos(0), PollInterval::new(6), 1, UID, &mut [0; COOKIE_BYTES]).unwrap();
    let packet = [header(), field(0x0104, &UID)].concat();
    let right = sealed(&packet, 7, &[1; 16], &field(0x0204, b"cookie.1"));
    let wrong = sealed(&packet, 8, &[1; 16], &field(0x0204, b"cookie.1"));
    let mut hear = |packet: &[u8]| {
        let (mut decrypted, mut list) = (vec![0; packet.len()], vec![0; packet.len()]);
        let opened = Opened::walk(packet, &mut Sum(7), &mut decrypted, &mut list).unwrap();
        (a.reply(&opened, times()).map(|_| ()), a.cookies())
    };
    assert_eq!(hear(&wrong), (Err(ReplyRefused::Undecodable), 0));
    // Without an authenticator the identifier is untrusted, and nobody's.
    assert_eq!(hear(&packet), (Err(ReplyRefused::NoMatch), 0));
    assert_eq!(hear(&right), (Ok(()), 1));
}
