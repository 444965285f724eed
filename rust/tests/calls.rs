//! The crate's own words, held to what docs/EMBEDDING.md and the cases of RULES say; the behaviour behind them is held to the drill by `tests/embed`.
use reckonstile::{
    check_calendar, cookie_list, plan_calendar, salvage, Action, Association, Bloom, CheckRefused, Dropped, LoadRefused,
    NewRefused, NtpInstant, NtpTimestamp, Opened, PlanRefused, PollInterval, PollIntervalLimits, ProtocolVersion, ReferenceId,
    ReplyRefused, RequestRefused, SalvageRefused, SendKind, Settings, SettingsFault, TimerRefused, Times, COOKIE_BYTES,
    ENTRIES, FILE_BYTES, REQUEST_BYTES,
};
use std::mem::MaybeUninit;
use std::time::{Duration, SystemTime, UNIX_EPOCH};

fn times(time: u64) -> Times {
    Times { t1: NtpTimestamp::from_bits(0), t4: NtpTimestamp::from_bits(0), time: NtpInstant::from_nanos(time) }
}

/// Places of a record's bytes, as the header's table has them.
const NTS: usize = 21;
const START: usize = 19;
const CAPACITY: usize = 26;
const READ: usize = 27;
const UNANSWERED: usize = 31;
const VERSION: usize = 32;
const DENIAL: usize = 41;
const PRESENT: usize = 42;
const ANSWERED: usize = 43;

fn made(settings: &Settings) -> Box<Association> {
    Association::new(settings, &[]).unwrap().0
}

/// The bytes of an association with one of them changed, as an association.
fn changed(a: &Association, at: usize, byte: u8) -> Vec<u8> {
    let mut bytes = a.as_bytes().to_vec();
    bytes[at] = byte;
    bytes
}

fn over(bytes: &mut [u8]) -> &mut Association {
    Association::from_bytes(bytes).unwrap()
}

fn tick(a: &mut Association, time: u64, id: u64) -> Result<SendKind, TimerRefused> {
    a.timer(NtpInstant::from_nanos(time), PollInterval::new(6), id, [0; 32], &mut []).map(|poll| poll.kind)
}

fn reply(id: u64) -> [u8; 48] {
    let mut packet = [0; 48];
    packet[..2].copy_from_slice(&[0x24, 2]);
    packet[24..32].copy_from_slice(&id.to_be_bytes());
    packet
}

#[test]
fn a_night_in_which_a_modem_keeps_three_replies() {
    let mut a = made(&Settings::default());
    for poll in 1..=3 {
        assert_eq!(tick(&mut a, poll * 60_000_000_000, poll), Ok(SendKind::V4));
    }
    assert_eq!(tick(&mut a, 240_000_000_000, 4), Err(TimerRefused::Reset));
    assert_eq!(TimerRefused::Reset.action(), Action::Reset);
    let before = a.as_bytes().to_vec();
    for poll in 1..=3 {
        assert_eq!(a.reply(&Opened::plain(&reply(poll)), times(14_400_000_000_000)), Err(ReplyRefused::Expired));
    }
    assert_eq!(a.as_bytes(), before);
    assert!(!a.is_reachable());
    assert_eq!(a.accept(17, &[], Bloom::NoFilter).unwrap_err().number(), 42);
}

#[test]
fn a_reply_without_a_live_request_says_why() {
    let mut a = made(&Settings::default());
    let heard = |a: &mut Association, id: u64, at: u64| {
        let before = a.as_bytes().to_vec();
        let said = a.reply(&Opened::plain(&reply(id)), times(at));
        assert!(said.is_ok() || a.as_bytes() == before, "a refusal changed the record");
        said.map(|_| ())
    };
    assert_eq!(heard(&mut a, 1, 0), Err(ReplyRefused::NeverSent));
    tick(&mut a, 0, 1).unwrap();
    assert_eq!(heard(&mut a, 1, 5_000_000_001), Err(ReplyRefused::Expired));
    assert_eq!(heard(&mut a, 1, 5_000_000_000), Ok(()));
    assert_eq!(heard(&mut a, 1, 5_000_000_000), Err(ReplyRefused::AlreadyMeasured));
    tick(&mut a, 6_000_000_000, 2).unwrap();
    assert_eq!(heard(&mut a, 1, 6_000_000_000), Err(ReplyRefused::NoMatch));
    assert_eq!(heard(&mut a, 1, 11_000_000_001), Err(ReplyRefused::Expired));
    // No call leaves a poll that is answered beside a request that waits.
    assert_eq!((a.as_bytes()[PRESENT], a.as_bytes()[ANSWERED]), (1, 0));
    let mut broken = changed(&a, ANSWERED, 1);
    assert_eq!(heard(over(&mut broken), 2, 6_000_000_000), Err(ReplyRefused::NotWhole));
}

#[test]
fn the_unanswered_polls_are_counted_in_the_record() {
    let mut a = made(&Settings::default());
    assert_eq!(a.unanswered_polls(), 8);
    tick(&mut a, 0, 1).unwrap();
    assert_eq!(a.unanswered_polls(), 8);
    assert!(a.reply(&Opened::plain(&reply(1)), times(0)).is_ok());
    assert_eq!(a.unanswered_polls(), 0);
    for poll in 2..=9 {
        tick(&mut a, 0, poll).unwrap();
        assert_eq!(u64::from(a.unanswered_polls()), poll - 1);
    }
    // A number that disagrees with reach is none that a call has made.
    for unanswered in (0..=255).filter(|n| *n != 8) {
        let mut broken = changed(&a, UNANSWERED, unanswered);
        assert_eq!(over(&mut broken).accept(17, &[], Bloom::NoFilter).unwrap_err().number(), 32);
    }
    // A hand-over file does not carry it: a load sets it from reach.
    let mut file = [0; FILE_BYTES];
    let length = a.save(&mut file).unwrap();
    assert_eq!(Association::<8>::load(&file[..length]).unwrap().0.unanswered_polls(), 8);
}

#[test]
fn the_window_ends_at_its_last_nanosecond() {
    let window = 5_000_000_000;
    for (after, measured) in [(0, true), (window, true), (window + 1, false)] {
        let mut a = made(&Settings::default());
        tick(&mut a, 7, 1).unwrap();
        assert_eq!(a.reply(&Opened::plain(&reply(1)), times(7 + after)).is_ok(), measured, "{after}");
    }
}

#[test]
fn cookies_go_in_and_out() {
    let mut list = [0; 64];
    let length = cookie_list([&[1; 20][..], &[2; 20]], &mut list).unwrap();
    let settings = Settings { nts: true, ..Settings::default() };
    let (mut a, _) = Association::<8>::new(&settings, &list[..length]).unwrap();
    assert_eq!(a.cookies(), 2);
    let mut short = [0; COOKIE_BYTES - 1];
    assert_eq!(a.timer(NtpInstant::from_nanos(0), PollInterval::new(6), 1, [9; 32], &mut short), Err(TimerRefused::WrongSize));
    let mut buffer = [0; COOKIE_BYTES];
    let poll = a.timer(NtpInstant::from_nanos(0), PollInterval::new(6), 1, [9; 32], &mut buffer).unwrap();
    assert_eq!((poll.kind, poll.cookie, poll.asked), (SendKind::NtsV4, &[1; 20][..], 7));
    let mut out = [0; REQUEST_BYTES];
    let length = a.write_request(&poll, 1, [9; 32], &mut out).unwrap();
    assert_eq!(length, 48 + 36 + 7 * 24);
    assert_eq!(a.write_request(&poll, 1, [9; 32], &mut out[..length - 1]), Err(RequestRefused::ShortRequestBuffer));
    assert_eq!((a.cookies(), a.pending_uid()), (1, Some([9; 32])));
    assert_eq!(Association::<8>::new(&settings, &list[..5]).unwrap_err(), NewRefused::BrokenList);
}

#[test]
fn cookies_that_do_not_fit_are_told() {
    let mut list = [0; 128];
    let length = cookie_list([&[1; 20][..], &[2; 3], &[], &[], &[], &[], &[], &[], &[9; 4], &[]], &mut list).unwrap();
    let settings = Settings { nts: true, ..Settings::default() };
    let (a, dropped) = Association::<8>::new(&settings, &list[..length]).unwrap();
    assert_eq!((a.cookies(), dropped), (8, Dropped { count: 2, bytes: 23 }));
    let (_, dropped) = Association::<8>::new(&settings, &[]).unwrap();
    assert_eq!(dropped, Dropped::default());
    // Without NTS the list is not looked at.
    let (_, dropped) = Association::<8>::new(&Settings::default(), &list[..length]).unwrap();
    assert_eq!(dropped, Dropped::default());
}

#[test]
fn a_stash_of_two_holds_the_newest_two() {
    let mut list = [0; 64];
    let length = cookie_list([&[1; 20][..], &[2; 3], &[3; 4]], &mut list).unwrap();
    let settings = Settings { nts: true, ..Settings::default() };
    let (mut a, dropped) = Association::<2>::new(&settings, &list[..length]).unwrap();
    assert_eq!((a.cookies(), dropped), (2, Dropped { count: 1, bytes: 20 }));
    let mut buffer = [0; COOKIE_BYTES];
    for (cookie, asked) in [(&[2; 3][..], 1), (&[3; 4], 2)] {
        let poll = a.timer(NtpInstant::from_nanos(0), PollInterval::new(6), 1, [0; 32], &mut buffer).unwrap();
        assert_eq!((poll.cookie, poll.asked), (cookie, asked));
    }
    let refused = a.timer(NtpInstant::from_nanos(0), PollInterval::new(6), 1, [0; 32], &mut buffer).unwrap_err();
    assert_eq!(refused, TimerRefused::NoCookie);
}

#[test]
fn a_version_is_kept() {
    for version in [ProtocolVersion::V4, ProtocolVersion::UpgradedToV5, ProtocolVersion::V5] {
        let (a, _) = Association::<8>::new(&Settings { version, ..Settings::default() }, &[]).unwrap();
        assert_eq!(a.version(), version);
    }
}

#[test]
fn the_retired_version_is_refused_in_a_record_and_becomes_v4_in_a_file() {
    let mut a = made(&Settings { version: ProtocolVersion::V5, ..Settings::default() });
    tick(&mut a, 0, 1).unwrap();
    for left in [0, 8, 255] {
        for place in [START, VERSION] {
            let mut broken = changed(&a, place, 1);
            broken[place + 1] = left;
            let before = broken.clone();
            let b = over(&mut broken);
            assert_eq!(tick(b, 0, 2).unwrap_err(), TimerRefused::NotWhole);
            assert_eq!(b.save(&mut [0; FILE_BYTES]).unwrap_err().number(), 32);
            assert_eq!(b.as_bytes(), before);
        }
    }
    // The start version stands at 23 of a file, the version behind the mark VE.
    let mut file = [0; FILE_BYTES];
    let length = a.save(&mut file).unwrap();
    let version = (0..length).find(|at| file[*at..].starts_with(b"VE\0\x02")).unwrap() + 4;
    let loaded = |file: &[u8]| {
        let (a, retired) = Association::<8>::load(&file[..length]).unwrap();
        (a.version(), retired, a.as_bytes()[START])
    };
    assert_eq!(loaded(&file), (ProtocolVersion::V5, false, 3));
    let mut old = file;
    (old[23], old[24]) = (1, 7);
    assert_eq!(loaded(&old), (ProtocolVersion::V5, true, 0));
    (old[version], old[version + 1]) = (1, 0);
    assert_eq!(loaded(&old), (ProtocolVersion::V4, true, 0));
    // Upgraded is not retired: it loads as it is.
    (file[23], file[version]) = (2, 2);
    assert_eq!(loaded(&file), (ProtocolVersion::UpgradedToV5, false, 2));
}

#[test]
fn settings_out_of_range_are_refused_and_named() {
    let good = Settings::default();
    let limits = |min, max| PollIntervalLimits { min: PollInterval::new(min), max: PollInterval::new(max) };
    let window = |poll_window| Settings { poll_window, ..good };
    let bad = [
        (Settings { poll_interval_limits: limits(-1, 10), ..good }, SettingsFault::PollMin),
        (Settings { poll_interval_limits: limits(4, 18), ..good }, SettingsFault::PollMax),
        (Settings { poll_interval_limits: limits(11, 10), ..good }, SettingsFault::PollOrder),
        (Settings { startup_tries: 0, ..good }, SettingsFault::StartupTries),
        (Settings { startup_tries: 9, ..good }, SettingsFault::StartupTries),
        (window(Duration::ZERO), SettingsFault::PollWindow),
        (window(Duration::from_nanos(60_000_000_001)), SettingsFault::PollWindow),
        (window(Duration::MAX), SettingsFault::PollWindow),
    ];
    for (settings, fault) in bad {
        assert_eq!(Association::<8>::new(&settings, &[]).unwrap_err(), NewRefused::BadSettings, "{settings:?}");
        assert_eq!(settings.check(), Err(fault));
    }
    // Each limit itself is within the range, and no fault is found in it.
    for settings in [
        window(Duration::from_nanos(1)),
        window(Duration::from_secs(60)),
        Settings { poll_interval_limits: limits(0, 17), ..good },
        Settings { poll_interval_limits: limits(17, 17), startup_tries: 8, ..good },
        Settings { startup_tries: 1, ..good },
    ] {
        assert_eq!((Association::<8>::new(&settings, &[]).err(), settings.check()), (None, Ok(())));
    }
}

#[test]
fn a_record_is_as_long_as_its_slots_are_many() {
    fn holds<const SLOTS: usize>() -> usize {
        let mut list = [0; 8 * 5];
        let length = cookie_list([&[7][..]; 8], &mut list).unwrap();
        let mut place = MaybeUninit::<Association<SLOTS>>::uninit();
        let settings = Settings { nts: true, ..Settings::default() };
        let (a, dropped) = Association::new_in(&mut place, &settings, &list[..length]).unwrap();
        assert_eq!((a.cookies(), dropped.count), (SLOTS, 8 - SLOTS as u64));
        assert_eq!(a.look().unwrap().settings.capacity, SLOTS as u8);
        // A file of it loads in the same type, and in no other.
        let mut file = [0; FILE_BYTES];
        let length = a.save(&mut file).unwrap();
        let mut other = MaybeUninit::<Association<SLOTS>>::uninit();
        let (b, retired) = Association::load_in(&mut other, &file[..length]).unwrap();
        assert_eq!((b.cookies(), retired, b.as_bytes().len()), (SLOTS, false, std::mem::size_of_val(b)));
        if SLOTS != 3 {
            assert_eq!(Association::<3>::load(&file[..length]).unwrap_err(), LoadRefused::WrongSize);
        }
        assert_eq!(std::mem::align_of::<Association<SLOTS>>(), 1);
        b.as_bytes().len()
    }
    assert_eq!([holds::<1>(), holds::<2>(), holds::<4>(), holds::<8>()], [818, 1544, 2996, 5900]);
}

#[test]
fn a_cookie_is_not_among_what_is_shown() {
    let cookie = [0xC7; 40];
    let mut list = [0; 44];
    let length = cookie_list([&cookie[..]], &mut list).unwrap();
    let (mut a, _) = Association::<2>::new(&Settings { nts: true, ..Settings::default() }, &list[..length]).unwrap();
    let shown = |text: &str| ["c7", "C7", "199"].iter().any(|byte| text.contains(byte));
    assert!(shown(&format!("{cookie:?}")), "else this test sees nothing");
    assert!(!shown(&format!("{a:?}")) && format!("{a:?}").contains("cookies: 1"));
    let mut buffer = [0; COOKIE_BYTES];
    let poll = a.timer(NtpInstant::from_nanos(0), PollInterval::new(6), 1, [0; 32], &mut buffer).unwrap();
    assert!(poll.cookie == cookie && !shown(&format!("{poll:?}")));
}

#[test]
fn more_identifiers_than_any_machine_has() {
    let mut local = vec![ReferenceId::from_bits(1); 10_000];
    let mut a = made(&Settings { source: ReferenceId::from_bits(2), ..Settings::default() });
    tick(&mut a, 0, 1).unwrap();
    let _ = a.reply(&Opened::plain(&reply(1)), times(0)).unwrap();
    assert_eq!(a.accept(16, &local, Bloom::NoFilter), Ok(()));
    local.push(ReferenceId::from_bits(2));
    assert_eq!(a.accept(16, &local, Bloom::NoFilter).unwrap_err().number(), 41);
}

#[test]
fn a_record_of_any_bytes_is_refused_untouched() {
    let whole = made(&Settings::default());
    let mut blank = made(&Settings::default());
    blank.blank();
    assert!(blank.as_bytes().iter().all(|byte| *byte == 0));
    for mut bytes in [
        changed(&whole, NTS, 2),
        changed(&whole, START, 4),
        changed(&whole, DENIAL, 255),
        changed(&whole, VERSION, 255),
        changed(&whole, READ, 255),
        changed(&whole, CAPACITY, 9),
        changed(&whole, CAPACITY, 4),
        changed(&whole, whole.as_bytes().len() - 1, 1),
        blank.as_bytes().to_vec(),
    ] {
        let before = bytes.clone();
        let a = over(&mut bytes);
        assert_eq!(tick(a, 0, 1), Err(TimerRefused::NotWhole));
        assert_eq!(a.reply(&Opened::plain(&reply(1)), times(0)), Err(ReplyRefused::NotWhole));
        assert_eq!(a.accept(17, &[], Bloom::NoFilter).unwrap_err().number(), 32);
        assert_eq!(a.as_bytes(), before);
    }
    // What can be read is shown, so that one sees what is wrong; an unknown code, and another size than the capacity's, cannot.
    assert_eq!(over(&mut changed(&whole, UNANSWERED, 3)).look().unwrap().state.unanswered, 3);
    for mut bytes in [changed(&whole, NTS, 2), changed(&whole, CAPACITY, 4), blank.as_bytes().to_vec()] {
        assert_eq!(over(&mut bytes).look().unwrap_err().number(), 32);
    }
}

#[test]
fn a_refusal_is_an_error_without_std() {
    fn told(error: &dyn core::error::Error) -> String {
        error.to_string()
    }
    assert_eq!(told(&TimerRefused::NoCookie), "no cookie is left: exchange keys again and begin with a new association (23)");
    assert_eq!(told(&SettingsFault::PollMin), "poll_interval_limits.min is below 0");
    let refused = reckonstile::compare(b"", b"", &mut []).unwrap_err();
    assert_eq!(
        core::error::Error::source(&refused).map(told).as_deref(),
        Some("a record of the file has a wrong length, or bytes are missing or left over (62)")
    );
}

#[test]
fn the_system_clock_as_a_timestamp() {
    // RFC 5905, figure 4: 1 January 1970 is 2,208,988,800 s into the era, and the era ends in 2036, 2,085,978,496 s after 1970.
    assert_eq!(NtpTimestamp::from(UNIX_EPOCH).to_bits(), 2_208_988_800 << 32);
    assert_eq!(NtpTimestamp::from(UNIX_EPOCH + Duration::from_millis(500)).to_bits(), 2_208_988_800 << 32 | 1 << 31);
    assert_eq!(NtpTimestamp::from(UNIX_EPOCH - Duration::from_millis(500)).to_bits(), 2_208_988_799 << 32 | 1 << 31);
    assert_eq!(NtpTimestamp::from(UNIX_EPOCH + Duration::from_secs(2_085_978_496)).to_bits(), 0);
    let earlier: NtpTimestamp = SystemTime::now().into();
    assert!(NtpTimestamp::now().since(earlier).to_bits() >= 0);
}

#[test]
fn an_association_may_go_to_another_thread() {
    let mut a = made(&Settings::default());
    let kind = std::thread::spawn(move || tick(&mut a, 0, 1)).join().unwrap();
    assert_eq!(kind, Ok(SendKind::V4));
}

#[test]
fn a_damaged_list_starts_an_association() {
    let mut list = [0; 64];
    let length = cookie_list([&[1; 20][..], &[2; 20]], &mut list).unwrap();
    let settings = Settings { nts: true, ..Settings::default() };
    list[2] = 9; // the length of the first cookie, which no longer fits
    assert_eq!(Association::<8>::new(&settings, &list[..length]).unwrap_err(), NewRefused::BrokenList);
    let mut out = [0xEE; 64];
    let salvaged = salvage(&list[..length], &mut out).unwrap();
    assert_eq!((salvaged.kept, salvaged.skipped, salvaged.gaps, salvaged.places()), (1, 24, 1, &[0][..]));
    assert_eq!(salvaged.list, &list[24..length]);
    assert_eq!(Association::<1>::new(&settings, salvaged.list).unwrap().0.cookies(), 1);
    assert_eq!(out[24..], [0xEE; 40]);
    assert_eq!(salvage(&list[..length], &mut out[..length - 1]).unwrap_err(), SalvageRefused::ShortSalvageBuffer);
}

#[test]
fn places_are_told_of_32_gaps() {
    // A stray byte before each of 40 records: a record before a stray byte is not kept, so that all but the last is lost, in one gap.
    let one = [0xFF, 0xC0, 0x0E, 0, 0];
    let mut out = [0; 400];
    let lost = salvage(&one.repeat(40), &mut out).unwrap();
    assert_eq!((lost.kept, lost.skipped, lost.gaps, lost.places().len()), (1, 196, 1, 1));
    // A stray byte before each two records keeps the first of them.
    let two = [0xFF, 0xC0, 0x0E, 0, 0, 0xC0, 0x0E, 0, 0];
    let kept = salvage(&two.repeat(40), &mut out).unwrap();
    assert_eq!((kept.kept, kept.gaps, kept.places().len()), (41, 40, 32));
    assert_eq!(kept.places()[..3], [0, 5, 14]);
}

#[test]
fn a_calendar_names_its_faults() {
    let hourly = [60u16; ENTRIES + 1];
    let starts: [u16; ENTRIES + 1] = core::array::from_fn(|k| k as u16 % 60);
    assert_eq!(check_calendar(1, &[], &[]), Ok(()));
    assert_eq!(check_calendar(1, &starts[..60], &hourly[..60]), Ok(()));
    assert_eq!(check_calendar(1, &starts[..61], &hourly[..61]), Err(CheckRefused::OverCap { minute: 0 }));
    assert_eq!(check_calendar(2, &starts, &hourly), Err(CheckRefused::TooMany));
    // Lists of unequal length: the first entry that lacks its repeat, or its start.
    assert_eq!(check_calendar(1, &starts[..3], &hourly[..2]), Err(CheckRefused::BadRepeat { entry: 2 }));
    assert_eq!(check_calendar(1, &starts[..2], &hourly[..3]), Err(CheckRefused::LateStart { entry: 2 }));
    assert_eq!(CheckRefused::LateStart { entry: 2 }.to_string(), "entry 2: a start at or past its repeat (82)");
}

#[test]
fn a_plan_is_written_whole_or_not_at_all() {
    let mut starts = [7; 4];
    assert_eq!(plan_calendar(1, &[4, 4, 2], &mut starts), Err(PlanRefused::NoFit { entry: 2 }));
    assert_eq!(plan_calendar(1, &[4, 0], &mut starts), Err(PlanRefused::BadRepeat { entry: 1 }));
    assert_eq!(plan_calendar(1, &[2, 4, 4], &mut starts[..2]), Err(PlanRefused::WrongSize));
    assert_eq!(plan_calendar(1, &[60; ENTRIES + 1], &mut starts), Err(PlanRefused::TooMany));
    assert_eq!(starts, [7; 4]);
    assert_eq!(plan_calendar(1, &[2, 4, 4], &mut starts), Ok(&[0, 1, 3][..]));
    assert_eq!(starts, [0, 1, 3, 7]);
}
