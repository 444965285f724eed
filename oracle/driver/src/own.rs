//! What RULES says of its own, so that no crate answers it: settings, lists, buffers and records that are refused
//! (30 to 33, 38), the caller's part of a reply, the collector's limit, stashes of less than eight slots. The answers are written
//! by hand.
use crate::drill::Log;
use crate::state::hex;

const BLANK: &str = "record reach=0 tries=0 version=v4 last=0 remote=0 pending=- denial=no stratum=0 refid=00000000 read=0 held=0 lens=0,0,0,0,0,0,0,0 answered=no unanswered=0 capacity=0";
const NEW: &str = "record reach=0 tries=0 version=v4 last=4 remote=4 pending=- denial=no stratum=16 refid=584e4f4e read=0 held=0 lens=0,0,0,0,0,0,0,0 answered=no unanswered=8 capacity=8";
const PLAIN: &str = "new min=4 max=10 startup=3 window=5000 mark=4e54503544524654 start=v4 nts=no source=c0000201";
const NTS: &str = "new min=4 max=10 startup=3 window=5000 mark=4e54503544524654 start=v4 nts=yes source=c0000201";
const TIMER: &str = "timer now=1000 desired=6 id=0102030405060708";
const SENT: &str = "timer 20 send=v4 poll=6 cookie=- asked=0";
const BROKEN_LIST: &str = "c00e000501";

/// A reply to TIMER of stratum 2 with all times 0, and what is measured by it.
fn packet(first: u8, mark: u64, more: &[u8]) -> String {
    let mut p = vec![first, 2, 6, 0];
    p.extend([0; 12]);
    p.extend(mark.to_be_bytes());
    p.extend([1, 2, 3, 4, 5, 6, 7, 8]);
    p.extend([0; 16]);
    p.extend(more);
    hex(&p)
}
const MEASURED: &str =
    "0 delay=0 offset=0 local=0 mono=2000 stratum=2 rootdelay=0 rootdisp=0 leap=0 precision=0 dropped=0 lost=0";
const NEW_0: &str = "new 0 dropped=0 lost=0";

fn reply(packet: &str, more: &str) -> String {
    format!("reply now=2000 t1=0 t4=0 packet={packet}{more}")
}

const REPLY5: &str = "reply5 now=2000 t1=0 t4=0 leap=0 mode=4 stratum=2 poll=6 precision=0 rootdelay=0 rootdisp=0 receive=0 transmit=0 cookie=0102030405060708";

fn settings(log: &mut Log) {
    log.comment("before any new the record is the blank one, which is not whole");
    log.own("show", BLANK);
    refused_32(log);
    log.comment("settings outside the ranges, and on their edges");
    for (min, max, startup, window, holds) in [
        (0, 0, 1, 1, true),
        (17, 17, 8, 60_000_000_000u64, true),
        (0, 17, 8, 1, true),
        (-1, 10, 3, 5000, false),
        (-128, 10, 3, 5000, false),
        (4, 18, 3, 5000, false),
        (4, 127, 3, 5000, false),
        (18, 18, 3, 5000, false),
        (11, 10, 3, 5000, false),
        (4, 10, 0, 5000, false),
        (4, 10, 9, 5000, false),
        (4, 10, 255, 5000, false),
        (4, 10, 3, 0, false),
        (4, 10, 3, 60_000_000_001, false),
        (4, 10, 3, u64::MAX, false),
    ] {
        log.own(PLAIN, NEW_0);
        let new = format!(
            "new min={min} max={max} startup={startup} window={window} mark=0000000000000000 start=v5 nts=no source=00000000"
        );
        if holds {
            log.own(&new, NEW_0);
            log.own(TIMER, &format!("timer 20 send=v5 poll={} cookie=- asked=0", min.max(6)));
        } else {
            log.own(&new, "new 30");
            log.own("show", BLANK);
            refused_32(log);
        }
    }
    log.comment("a broken list is refused with NTS only, and after the settings");
    for list in [BROKEN_LIST, "c0", "c00e", "c00e00", "c00f0000", "00", "c00e000101c0", "c00e0000c00e0001"] {
        log.own(&format!("{NTS} list={list}"), "new 33");
        log.own("show", BLANK);
        refused_32(log);
        log.own(&format!("{PLAIN} list={list}"), NEW_0);
        log.own("show", NEW);
    }
    log.own(&format!("{} list={BROKEN_LIST}", NTS.replace("startup=3", "startup=0")), "new 30");
    log.own(&format!("{NTS} list=c00e0000c00e000101"), NEW_0);
    log.own("cookies", "cookies 2 -,01");
    log.own(NTS, NEW_0);
    log.own("cookies", "cookies 0");
}

/// Every call refuses a record that is not whole, and leaves it.
fn refused_32(log: &mut Log) {
    log.own(TIMER, "timer 32");
    log.own(&format!("{TIMER} room=0"), "timer 32");
    log.own(&reply(&packet(0x24, 0, &[]), ""), "reply 32");
    log.own(&reply("-", &format!(" list={BROKEN_LIST}")), "reply 32");
    log.own(&format!("{REPLY5} list={BROKEN_LIST}"), "reply5 32");
    log.own("accept stratum=0", "accept 32");
    log.own("cookies", "cookies 0");
}

fn wholeness(log: &mut Log) {
    log.comment("records that a number set by hand makes not whole, and whole again");
    for (key, bad, good) in [
        ("min", "-1", "4"),
        ("min", "11", "4"),
        ("max", "3", "10"),
        ("max", "18", "17"),
        ("startup", "0", "1"),
        ("startup", "9", "8"),
        ("window", "0", "1"),
        ("window", "60000000001", "60000000000"),
        ("read", "1", "0"),
        ("held", "1", "0"),
        ("reach", "1", "0"),
        ("unanswered", "0", "8"),
        ("unanswered", "7", "8"),
        ("unanswered", "9", "8"),
        ("unanswered", "255", "8"),
    ] {
        log.own(PLAIN, NEW_0);
        log.own(&format!("poke key={key} value={bad}"), "poke");
        refused_32(log);
        log.own(&format!("poke key={key} value={good}"), "poke");
        log.own(TIMER, SENT);
    }
    log.comment("the unanswered polls of each reach: with another number, and with another reach, the record is not whole");
    for register in (0..8).flat_map(|k| [1u8 << k, u8::MAX << k]).chain([0, 0b1010_0100]) {
        let unanswered = (0..8).take_while(|k| register >> k & 1 == 0).count();
        log.own(PLAIN, NEW_0);
        log.own(&format!("poke key=reach value={register}"), "poke");
        for number in 0..=9 {
            log.own(&format!("poke key=unanswered value={number}"), "poke");
            let reached = if register == 0 { 42 } else { 0 };
            log.own("accept stratum=17", &format!("accept {}", if number == unanswered { reached } else { 32 }));
        }
    }
    log.comment("a reply measured since the last sent poll, beside a request that is pending: not whole");
    log.own(PLAIN, NEW_0);
    log.own(TIMER, SENT);
    log.own("poke key=answered value=1", "poke");
    refused_32(log);
    log.own("poke key=answered value=0", "poke");
    log.own(&reply(&packet(0x24, 0, &[]), ""), &format!("reply {MEASURED}"));
    log.own("poke key=answered value=0", "poke");
    log.own(&reply(&packet(0x24, 0, &[]), ""), "reply 12");
    log.own("poke key=answered value=1", "poke");
    log.own(&reply(&packet(0x24, 0, &[]), ""), "reply 13");
    let two = format!("{NTS} list=c00e000101c00e000102");
    let sent = |cookie: &str, asked: u8| format!("timer 20 send=nts-v4 poll=6 cookie={cookie} asked={asked}");
    for (key, bad, good) in
        [("read", "8", "0"), ("read", "18446744073709551615", "0"), ("held", "9", "2"), ("held", "1", "2"), ("read", "1", "0")]
    {
        log.own(&two, NEW_0);
        log.own(&format!("poke key={key} value={bad}"), "poke");
        refused_32(log);
        log.own(&format!("poke key={key} value={good}"), "poke");
        log.own(TIMER, &sent("01", 7));
    }
    log.comment("an empty slot that is held is a cookie of no bytes, and an empty stash may be read anywhere");
    log.own(NTS, NEW_0);
    log.own("poke key=held value=1", "poke");
    log.own("cookies", "cookies 1 -");
    log.own(TIMER, &sent("-", 8));
    log.own("poke key=read value=7", "poke");
    log.own(TIMER, "timer 23");
    log.own("blank", "blank");
    log.own("show", BLANK);
    refused_32(log);
}

fn rooms(log: &mut Log) {
    log.comment("a cookie buffer under 724 bytes is refused with NTS, before the rest");
    log.own(&format!("{NTS} list=c00e000101"), NEW_0);
    for room in [0, 1, 723] {
        log.own(&format!("{TIMER} room={room}"), "timer 31");
    }
    log.own("cookies", "cookies 1 01");
    log.own(&format!("{TIMER} room=724"), "timer 20 send=nts-v4 poll=6 cookie=01 asked=8");
    log.own(&format!("{TIMER} room=723"), "timer 31");
    log.own(&format!("{TIMER} room=724"), "timer 23");
    log.own("poke key=tries value=3", "poke");
    log.own(&format!("{TIMER} room=723"), "timer 31");
    log.own(&format!("{TIMER} room=724"), "timer 21");
    log.own(PLAIN, NEW_0);
    log.own(&format!("{TIMER} room=0"), SENT);
    log.comment("the collector: broken fields before the buffer, nothing but cookies in the list");
    let two = "0204000801020304020400080506070802040004";
    let list = "c00e000401020304c00e000405060708c00e0000";
    for (plain, room, answer) in [
        (two, 20, format!("collect 0 list={list}")),
        (two, 4096, format!("collect 0 list={list}")),
        (two, 19, "collect 31".into()),
        (two, 0, "collect 31".into()),
        ("-", 0, "collect 0 list=-".into()),
        ("0104000801020304", 0, "collect 0 list=-".into()),
        ("0404000801020304", 0, "collect 0 list=-".into()),
        ("02040003", 0, "collect 1".into()),
        ("02040008010203", 0, "collect 1".into()),
        ("0204000401", 4096, "collect 1".into()),
        ("0204000601020304", 4096, "collect 1".into()),
        ("02040008010203040000", 4096, "collect 1".into()),
    ] {
        log.own(&format!("collect plain={plain} room={room}"), &answer);
    }
    log.own(&format!("collect plain={two}"), &format!("collect 0 list={list}"));
}

fn callers_part(log: &mut Log) {
    log.comment("the authenticated end is 48, where a field starts or where the walk ends");
    let mut more = [0x11, 0x11, 0, 16].to_vec();
    more.extend([0; 12]);
    more.extend([0x22, 0x22, 0, 28]);
    more.extend([0; 24]);
    more.extend([0xaa; 24]);
    let p = packet(0x24, 0, &more);
    for (auth, good) in [
        (0, false),
        (47, false),
        (48, true),
        (49, false),
        (52, false),
        (64, true),
        (68, false),
        (92, true),
        (96, false),
        (116, false),
        (117, false),
        (u64::MAX, false),
    ] {
        log.own(PLAIN, NEW_0);
        log.own(TIMER, SENT);
        let answer = if good { format!("reply {MEASURED}") } else { "reply 1".into() };
        log.own(&reply(&p, &format!(" auth={auth}")), &answer);
    }
    log.comment("version 3 has only tail");
    for (auth, good) in [(48, true), (64, false), (116, false)] {
        log.own(PLAIN, NEW_0);
        log.own(TIMER, SENT);
        let answer = if good { format!("reply {MEASURED}") } else { "reply 1".into() };
        log.own(&reply(&packet(0x1c, 0, &more), &format!(" auth={auth}")), &answer);
    }
    log.comment("decrypted bytes and the list are read with NTS only; broken ones are 1, then 33, before the version");
    let (v4, v5) = (packet(0x24, 0, &[]), packet(0x2c, 0, &[]));
    let uid = "01".repeat(32);
    let plain = format!("01040024{uid}");
    for (broken, list, of_nts, of_plain) in [
        (false, false, format!("reply {MEASURED}"), format!("reply {MEASURED}")),
        (true, false, "reply 1".into(), format!("reply {MEASURED}")),
        (true, true, "reply 1".into(), format!("reply {MEASURED}")),
        (false, true, "reply 33".into(), format!("reply {MEASURED}")),
    ] {
        let more = format!(" plain={plain}{} list={}", if broken { "00" } else { "" }, if list { BROKEN_LIST } else { "-" });
        log.own(&format!("{NTS} list=c00e000101"), NEW_0);
        log.own(&format!("{TIMER} uid={uid}"), "timer 20 send=nts-v4 poll=6 cookie=01 asked=8");
        log.own(&reply(&v5, &more), "reply 1");
        log.own(&reply(&v4, &more), &of_nts);
        log.own(PLAIN, NEW_0);
        log.own(TIMER, SENT);
        log.own(&reply(&v5, &more), "reply 1");
        log.own(&reply(&v4, &more), &of_plain);
    }
    log.own(&format!("{} list=c00e000101", NTS.replace("start=v4", "start=v5")), NEW_0);
    log.own(&reply(&v4, &format!(" list={BROKEN_LIST}")), "reply 33");
    log.own(&reply(&v4, ""), "reply 2");
    log.own(&format!("{REPLY5} list={BROKEN_LIST}"), "reply5 33");
    log.own(REPLY5, "reply5 12");
    log.comment("version 3 with NTS: the decrypted bytes are read too");
    log.own(&format!("{NTS} list=c00e000101"), NEW_0);
    log.own(&format!("{TIMER} uid={uid}"), "timer 20 send=nts-v4 poll=6 cookie=01 asked=8");
    log.own(
        &reply(&packet(0x1c, 0, &[]), &format!(" plain={plain}0204000802030405 list=collect")),
        &format!("reply {MEASURED}"),
    );
    log.own("cookies", "cookies 1 02030405");
    log.comment("another upgrade mark: a reply with it is one like any other");
    log.own(&PLAIN.replace("4e54503544524654", "0000000000000001"), NEW_0);
    log.own(TIMER, SENT);
    log.own(&reply(&packet(0x24, 1, &[]), ""), &format!("reply {MEASURED}"));
    log.own(TIMER, SENT);
}

fn decoded_form(log: &mut Log) {
    log.comment("numbers 5 to 11 are given in order, whatever else a decoded reply says");
    let new = |nts: &str| nts.replace("start=v4", "start=v5");
    for (kiss, stratum, mode, plain, nts) in [
        ("rate,deny,rstr,ntsn,any", 17, 3, 5, 5),
        ("rate", 2, 4, 5, 5),
        ("deny,rstr,ntsn,any", 17, 3, 6, 7),
        ("deny", 2, 4, 6, 7),
        ("rstr,ntsn,any", 0, 4, 6, 7),
        ("rstr", 2, 4, 6, 7),
        ("ntsn,any", 17, 3, 8, 8),
        ("ntsn", 2, 4, 8, 8),
        ("any", 17, 3, 9, 9),
        ("any", 2, 4, 9, 9),
        ("-", 17, 3, 10, 10),
        ("-", 16, 3, 11, 11),
        ("-", 0, 3, 11, 11),
    ] {
        let reply5 = REPLY5.replace("stratum=2", &format!("stratum={stratum}")).replace("mode=4", &format!("mode={mode}"));
        log.own(&new(PLAIN), NEW_0);
        log.own(TIMER, "timer 20 send=v5 poll=6 cookie=- asked=0");
        log.own(&format!("{reply5} kiss={kiss}"), &format!("reply5 {plain}"));
        log.own(&format!("{} list=c00e000101", new(NTS)), NEW_0);
        log.own(TIMER, "timer 20 send=nts-v5 poll=6 cookie=01 asked=8");
        log.own(&format!("{reply5} kiss={kiss} auth=agree"), &format!("reply5 {nts}"));
    }
    log.comment("stratum 0 without a kiss is measured");
    log.own(&new(PLAIN), NEW_0);
    log.own(TIMER, "timer 20 send=v5 poll=6 cookie=- asked=0");
    log.own(&REPLY5.replace("stratum=2", "stratum=0"), &format!("reply5 {}", MEASURED.replace("stratum=2", "stratum=0")));
    log.comment("the uid groups with NTS: none of those that count disagrees and one agrees");
    const STATES: [&str; 3] = ["absent", "agree", "disagree"];
    for kiss in ["ntsn,any", "any"] {
        for (auth, enc, untrusted) in (0..27).map(|i| (STATES[i / 9], STATES[i / 3 % 3], STATES[i % 3])) {
            let counts = if kiss == "any" { vec![auth, enc] } else { vec![auth, enc, untrusted] };
            let matches = counts.contains(&"agree") && !counts.contains(&"disagree");
            let number = if !matches {
                4
            } else if kiss == "any" {
                9
            } else {
                8
            };
            log.own(&format!("{} list=c00e000101", new(NTS)), NEW_0);
            log.own(TIMER, "timer 20 send=nts-v5 poll=6 cookie=01 asked=8");
            let groups = format!("auth={auth} enc={enc} untrusted={untrusted}");
            log.own(&format!("{REPLY5} kiss={kiss} {groups}"), &format!("reply5 {number}"));
        }
    }
}

/// A stash of a chosen size (RULES, No. 12): full, gap and wrap follow the capacity, and so does when a record is whole.
pub fn capacities(log: &mut Log) {
    log.comment("a capacity outside 1 to 8 is refused, with NTS or without, and before a list that is broken");
    for (capacity, holds) in [(0, false), (1, true), (2, true), (7, true), (8, true), (9, false), (255, false)] {
        for new in [PLAIN, NTS] {
            log.own(&format!("{new} capacity={capacity}"), if holds { NEW_0 } else { "new 30" });
            let shown = if holds { NEW.replace("capacity=8", &format!("capacity={capacity}")) } else { BLANK.into() };
            log.own("show", &shown);
        }
        let number = if holds { 33 } else { 30 };
        log.own(&format!("{NTS} list={BROKEN_LIST} capacity={capacity}"), &format!("new {number}"));
    }
    log.comment("of nine cookies those that fit are held, and each poll asks for as many as there is room for");
    let nine: String = (1..=9).map(|n| format!("c00e0001{n:02x}")).collect();
    for capacity in 1..=8 {
        let dropped = 9 - capacity;
        log.own(
            &format!("{} list={nine} capacity={capacity}", NTS.replace("startup=3", "startup=8")),
            &format!("new 0 dropped={dropped} lost={dropped}"),
        );
        let held: Vec<String> = (dropped + 1..=9).map(|n| format!("{n:02x}")).collect();
        log.own("cookies", &format!("cookies {capacity} {}", held.join(",")));
        for (polls, cookie) in held.iter().enumerate() {
            log.own(TIMER, &format!("timer 20 send=nts-v4 poll=6 cookie={cookie} asked={}", polls + 1));
        }
        // After eight polls without an answer the startup limit is reached.
        log.own(TIMER, if capacity < 8 { "timer 23" } else { "timer 21" });
    }
    log.comment(
        "a record is whole if its reading place is below the capacity, no more are held, and the slots past it are free",
    );
    let three = format!("{NTS} list=c00e000101c00e000102c00e000103");
    for (capacity, read, held, whole) in [
        (3, 0, 3, true),
        (3, 1, 3, true),
        (3, 2, 3, true),
        (3, 3, 3, false),
        (3, 0, 4, false),
        (2, 0, 2, false),
        (2, 0, 3, false),
        (4, 0, 3, true),
        (4, 1, 3, false),
        (8, 0, 3, true),
        (0, 0, 3, false),
        (9, 0, 3, false),
        (255, 0, 3, false),
    ] {
        log.own(&three, NEW_0);
        for (key, value) in [("capacity", capacity), ("read", read), ("held", held)] {
            log.own(&format!("poke key={key} value={value}"), "poke");
        }
        if whole {
            log.own("accept stratum=17", "accept 42");
        } else {
            refused_32(log);
        }
    }
}

/// The retired version (RULES, No. 14): settings with it are refused, and records that hold it.
pub fn retired(log: &mut Log) {
    log.comment("the upgrading start version is refused, after the settings and the list");
    for tries in [0, 1, 2, 8, 255] {
        for new in [PLAIN, NTS] {
            let new = new.replace("start=v4", &format!("start=upgrading:{tries}"));
            log.own(&new, "new 38");
            log.own("show", BLANK);
            refused_32(log);
            log.own(&new.replace("startup=3", "startup=0"), "new 30");
            log.own(&format!("{new} list={BROKEN_LIST}"), if new.contains("nts=yes") { "new 33" } else { "new 38" });
        }
    }
    log.comment("a record that holds it, as version or as start version, is not whole");
    for (key, retired, stays) in [
        ("version", "upgrading:0", "v4"),
        ("version", "upgrading:8", "v4"),
        ("start", "upgrading:0", "v4"),
        ("start", "upgrading:255", "upgraded"),
        ("start", "upgrading:1", "v5"),
    ] {
        log.own(PLAIN, NEW_0);
        log.own(&format!("poke key={key} value={retired}"), "poke");
        refused_32(log);
        log.own(&format!("poke key={key} value={stays}"), "poke");
        log.own(TIMER, SENT);
    }
}

/// Writes what RULES alone answers.
pub fn write(log: &mut Log) {
    settings(log);
    wholeness(log);
    rooms(log);
    callers_part(log);
    decoded_form(log);
}
