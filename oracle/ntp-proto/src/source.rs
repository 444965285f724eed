// The published source.rs, then a reader and a writer of its private fields.
include!(concat!(env!("CARGO_MANIFEST_DIR"), "/../published/source.rs"));

pub mod inspect {
    use super::*;

    /// All that the association keeps between calls, cookies oldest first.
    #[derive(Debug, Clone, PartialEq, Eq)]
    pub struct Record {
        pub reach: u8,
        /// Counted by the crate from its reach, whenever it is asked for.
        pub unanswered: u32,
        pub tries: usize,
        pub stratum: u8,
        pub reference_id: [u8; 4],
        pub last_poll: i8,
        pub remote_min: i8,
        /// Identifier, uid, deadline in nanoseconds.
        pub pending: Option<(u64, Option<[u8; 32]>, u64)>,
        pub denied: bool,
        pub version: ProtocolVersion,
        /// Reading place and cookies, with NTS.
        pub stash: Option<(usize, Vec<Vec<u8>>)>,
    }

    fn stash_of(read: usize, cookies: &[Vec<u8>]) -> CookieStash {
        let mut stash = CookieStash::default();
        for _ in 0..read {
            stash.store(vec![]);
            stash.get();
        }
        for c in cookies {
            stash.store(c.clone());
        }
        stash
    }

    /// The stash's fields are private to their file, so the reading place comes out of its Debug text and the cookies
    /// out of emptying it; the emptied stash must equal a fresh one, so that every free slot was empty, and is refilled.
    fn read_stash(stash: &mut CookieStash) -> (usize, Vec<Vec<u8>>) {
        let text = format!("{stash:?}");
        let num = |key: &str| -> usize {
            let rest = &text[text.find(key).unwrap() + key.len()..];
            rest[..rest.find(|c: char| !c.is_ascii_digit()).unwrap()].parse().unwrap()
        };
        let (read, valid) = (num("read: "), num("valid: "));
        let cookies: Vec<Vec<u8>> = std::iter::from_fn(|| stash.get()).collect();
        assert_eq!(cookies.len(), valid);
        assert!(*stash == stash_of((read + valid) % 8, &[]));
        *stash = stash_of(read, &cookies);
        (read, cookies)
    }

    /// The 32-bit identifier that the crate makes of an address.
    pub fn identifier_of(ip: IpAddr) -> u32 {
        u32::from_be_bytes(ReferenceId::from_ip(ip).to_bytes())
    }

    impl<M> NtpSourceUpdate<M> {
        pub fn has_message(&self) -> bool {
            self.message.is_some()
        }
    }

    impl<C: SourceController<MeasurementDelay = NtpDuration>> NtpSource<C> {
        pub fn make(
            source_addr: SocketAddr,
            min: i8,
            max: i8,
            version: ProtocolVersion,
            controller: C,
            cookies: Option<&[Vec<u8>]>,
        ) -> (Self, NtpSourceActionIterator<C::SourceMessage>) {
            let nts = cookies.map(|cookies| {
                Box::new(SourceNtsData {
                    cookies: stash_of(0, cookies),
                    c2s: Box::new(crate::packet::AesSivCmac256),
                    s2c: Box::new(crate::packet::AesSivCmac256),
                })
            });
            let config = SourceConfig {
                poll_interval_limits: crate::time_types::PollIntervalLimits {
                    min: PollInterval::from_byte(min as u8),
                    max: PollInterval::from_byte(max as u8),
                },
            };
            Self::new(source_addr, config, version, controller, nts)
        }

        pub fn record(&mut self) -> Record {
            Record {
                reach: self.reach.0,
                unanswered: self.reach.unanswered_polls(),
                tries: self.tries,
                stratum: self.stratum,
                reference_id: self.reference_id.to_bytes(),
                last_poll: self.last_poll_interval.as_log(),
                remote_min: self.remote_min_poll_interval.as_log(),
                pending: self.current_request_identifier.map(|(id, deadline)| {
                    let (origin, uid) = id.view();
                    (origin, uid, deadline.nanos())
                }),
                denied: self.have_deny_rstr_response,
                version: self.protocol_version,
                stash: self.nts.as_mut().map(|nts| read_stash(&mut nts.cookies)),
            }
        }

        /// Makes the association that of the record; address and limits stay.
        pub fn set_record(&mut self, r: &Record) {
            self.reach = Reach(r.reach);
            self.tries = r.tries;
            self.stratum = r.stratum;
            self.reference_id = ReferenceId::from_bytes(r.reference_id);
            self.last_poll_interval = PollInterval::from_byte(r.last_poll as u8);
            self.remote_min_poll_interval = PollInterval::from_byte(r.remote_min as u8);
            self.current_request_identifier =
                r.pending.map(|(id, uid, d)| (RequestIdentifier::make(id, uid), NtpInstant::from_nanos(d)));
            self.have_deny_rstr_response = r.denied;
            self.protocol_version = r.version;
            if let (Some(nts), Some((read, cookies))) = (self.nts.as_mut(), r.stash.as_ref()) {
                nts.cookies = stash_of(*read, cookies);
            }
        }

        /// Only the startup test reads `tries`, which is how the driver shows it another startup limit.
        pub fn set_tries(&mut self, tries: usize) {
            self.tries = tries;
        }
        pub fn tries(&self) -> usize {
            self.tries
        }
        /// Puts a request back, so that the same reply can be counted again.
        pub fn set_pending(&mut self, id: u64, uid: Option<[u8; 32]>, deadline: u64) {
            self.current_request_identifier = Some((RequestIdentifier::make(id, uid), NtpInstant::from_nanos(deadline)));
        }
        /// Puts a cookie back, so that the same timer call can be counted again.
        pub fn store_cookie(&mut self, cookie: Vec<u8>) {
            self.nts.as_mut().unwrap().cookies.store(cookie);
        }
        pub fn controller(&mut self) -> &mut C {
            &mut self.controller
        }
    }
}
