//! How a measurement of the library becomes the crate's (docs/EMBEDDING.md), by the crate's public functions alone: shown to be exact.
#[cfg(test)]
mod tests {
    use ntp_proto::{NtpDuration, NtpTimestamp};

    fn duration(bits: i64) -> NtpDuration {
        NtpDuration::from_exponent(-32) * bits
    }

    fn timestamp(bits: u64) -> NtpTimestamp {
        NtpTimestamp::default() + duration(bits as i64)
    }

    #[test]
    fn a_duration_and_a_timestamp_come_over_to_the_bit() {
        let mut bits: u64 = 1;
        for _ in 0..10_000 {
            bits = bits.wrapping_mul(6364136223846793005).wrapping_add(1442695040888963407);
            assert_eq!(duration(bits as i64).raw(), bits as i64);
            assert_eq!(timestamp(bits).raw(), bits);
        }
        for bits in [0, 1, i64::MAX as u64, i64::MIN as u64, u64::MAX] {
            assert_eq!((duration(bits as i64).raw(), timestamp(bits).raw()), (bits as i64, bits));
        }
    }

    #[test]
    fn the_crate_takes_a_second_for_one_unit_less() {
        assert_eq!(duration(1 << 32).to_seconds(), 4294967296.0 / 4294967295.0);
    }
}
