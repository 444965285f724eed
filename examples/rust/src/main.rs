//! One poll, measured: examples/c/measure.c in Rust. The server's reply is made here, so nothing is sent; `rust/examples/connector.rs` is a whole client.
use reckonstile::{Association, NtpInstant, NtpTimestamp, Opened, PollInterval, Settings, Times, REQUEST_BYTES};

const SECOND: u64 = 1 << 32; // of a timestamp, in its units of 2^-32 s

fn main() -> Result<(), Box<dyn std::error::Error>> {
    let (mut association, _) = Association::<1>::new(&Settings::default(), &[])?;

    // It is time to poll. The id must be 64 random bits, drawn anew for each poll; here it is fixed, since the reply is made for it.
    let (id, uid, nanos) = (0x0123456789ABCDEF, [0; 32], 1_000_000_000);
    let poll = association.timer(NtpInstant::from_nanos(nanos), PollInterval::new(6), id, uid, &mut [])?;
    let mut request = [0; REQUEST_BYTES];
    let length = association.write_request(&poll, id, uid, &mut request)?;
    assert_eq!(length, 48);

    // What a server of stratum 2 would send back: its clock is 1.25 s ahead of ours, and each way takes a quarter of a second.
    let t1 = 100 * SECOND;
    let (t2, t4) = (t1 + SECOND / 4 + SECOND / 4 * 5, t1 + SECOND / 4 * 3);
    let t3 = t2 + SECOND / 4;
    let mut reply = [0; 48];
    reply[..2].copy_from_slice(&[0x24, 2]); // version 4, mode 4; stratum
    reply[24..32].copy_from_slice(&request[40..48]); // it names the request that it answers
    reply[32..40].copy_from_slice(&t2.to_be_bytes());
    reply[40..].copy_from_slice(&t3.to_be_bytes());

    let time = NtpInstant::from_nanos(nanos + 750_000_000);
    let times = Times { t1: NtpTimestamp::from_bits(t1), t4: NtpTimestamp::from_bits(t4), time };
    let measured = association.reply(&Opened::plain(&reply), times)?;
    println!(
        "measured: offset {:.3} s, delay {:.3} s, stratum {}",
        measured.offset.to_seconds(),
        measured.delay.to_seconds(),
        measured.stratum
    );
    association.accept(16, &[], Default::default())?;
    Ok(())
}
