//! Calls of the crate on fixed inputs and nothing else, so that instructions can be counted. The cipher does no work and the
//! random numbers are fixed, since both are the caller's.
use crate::exec::Controller;
use crate::random::{field, seal};
use crate::state::Version;
use ntp_proto::tls_utils::{FakeCipher, set_now};
use ntp_proto::{NtpInstant, NtpSource, NtpTimestamp};
use std::hint::black_box;
use std::net::{IpAddr, Ipv4Addr, SocketAddr};

pub const KINDS: [&str; 4] = ["timer", "reply", "timer-nts", "reply-nts"];

/// What the fixed random numbers make of identifier and uid.
const ID: u64 = 0x5a5a5a5a5a5a5a5a;
const UID: [u8; 32] = [0x5a; 32];

/// One timer call, with a name that a counter can find.
#[inline(never)]
fn counted_timer(source: &mut NtpSource<Controller>) {
    black_box(source.handle_timer());
}

/// One reply call, with a name that a counter can find.
#[inline(never)]
fn counted_reply(source: &mut NtpSource<Controller>, packet: &[u8]) {
    let now = NtpInstant::from_nanos(2000);
    black_box(source.handle_incoming(packet, now, NtpTimestamp::of(1 << 32), NtpTimestamp::of(4 << 32)));
}

/// A V4 reply of stratum 2, with NTS sealed over the uid and one new cookie.
fn answer(nts: bool) -> Vec<u8> {
    let mut p = vec![0x24, 2, 6, 0xec, 0, 0, 1, 0, 0, 0, 2, 0, 192, 0, 2, 1];
    p.extend([0; 8]);
    for t in [ID, 2 << 32, 3 << 32] {
        p.extend(t.to_be_bytes());
    }
    if nts {
        field(&mut p, 0x0104, &UID, 16);
        let mut plain = vec![];
        field(&mut plain, 0x0204, &[9; 100], 0);
        seal(&mut p, &plain);
    }
    p
}

/// Runs `calls` calls of a kind; with `base` everything but the call itself, which is the cost to take off.
pub fn run(kind: &str, calls: u64, base: bool) {
    let nts = kind.ends_with("-nts");
    let cookies = vec![vec![7u8; 100]; 8];
    let (mut source, actions) = NtpSource::make(
        SocketAddr::new(IpAddr::V4(Ipv4Addr::new(192, 0, 2, 1)), 123),
        4,
        10,
        Version::V4,
        Controller { desired: 6, measured: None },
        nts.then_some(cookies.as_slice()),
    );
    drop(actions);
    let packet = answer(nts);
    set_now(1000);
    FakeCipher::set_idle(true);
    rand::oracle::set_fixed(true);
    for _ in 0..calls {
        if kind.starts_with("timer") {
            source.set_tries(0);
            if nts {
                source.store_cookie(black_box(&cookies)[0].clone());
            }
            if !base {
                counted_timer(&mut source);
            }
        } else {
            source.set_pending(ID, nts.then_some(UID), 6000);
            if !base {
                counted_reply(&mut source, black_box(&packet));
            }
        }
    }
    let (sent, measured) = (source.record().pending.is_some(), source.controller().measured.is_some());
    assert!(base || if kind.starts_with("timer") { sent } else { measured });
}
