//! Checks of replay: document 02 d), as its readings d1 to d7 have it. Card A, train type 6, tick 100, where no other is named;
//! those of rides by seed are in replay_laws.rs.

use crate::cards::{unhex, CARD_A};
use crate::cases::{answer, hex};
use crate::check::Checks;
use crate::notation::{on, run, samples};
use crate::replay::{print, quota, replay, End, Handed};
use crate::replays::{answer_replay, answer_splits};
use crate::ride::recorded;

const PAPER: &str = "0, 100/7, 100/0/16";
const BAD_SECOND: &str = "0, 100/13, 100/0/16";
const TOP: &str = "18446744073709551615";

pub fn all(checks: &mut Checks) {
    notation(checks);
    places(checks);
    train_type(checks);
    order(checks);
    refused(checks);
    not_looked_at(checks);
    two_quotas(checks);
    never_wraps(checks);
    in_the_middle(checks);
    steps(checks);
    longest(checks);
    splits(checks);
    quotas(checks);
    program(checks);
}

/// What the calls on a recording are answered with, a line each; " | " parts the lines.
fn told_of(train: u8, steps: u8, recording: &str, calls: &str) -> String {
    let lines = answer_replay(&format!("{train:02x} {steps:02x} {} {recording} {calls}", hex(&unhex(CARD_A))));
    lines.trim_end().replace('\n', " | ")
}

fn recording(ride: &str) -> String {
    hex(&recorded(6, &samples(ride)))
}

fn told(ride: &str, calls: &str) -> String {
    told_of(6, 0, &recording(ride), calls)
}

fn table(checks: &mut Checks, ride: &str, table: &[(&str, &str)]) {
    for (calls, wanted) in table {
        checks.equal(&format!("{ride}, {calls}"), told(ride, calls), wanted.to_string());
    }
}

/// Document 01's ride, with card and recording in either case.
fn notation(checks: &mut Checks) {
    let card = "002701a0006450a0784b14a0504b16a0644b16a0504b16502814149b1e1416a03c4b1664640001";
    let ride = "000000180106000000000001006407000001006400001001";
    let says = |case: &str| {
        let mut out = Vec::new();
        answer(case, &mut out).unwrap();
        String::from_utf8(out).unwrap()
    };
    for case in [format!("06 00 {card} {ride} 1:1"), format!("06 00 {card} {ride} 1:1").to_uppercase()] {
        checks.equal("a case", says(&format!("replay {case}")), format!("replay {case}\n1 8000 16 0 0 0 done\n"));
    }
    checks.equal("a card of no bytes", says("replay 06 00 - - 0:1,0:1"), "replay 06 00 - - 0:1,0:1\nrefused 1\n".into());
    let no_bytes = format!("replay 06 00 {card} - 0:0,1:1");
    checks.equal("no recording", says(&no_bytes), format!("{no_bytes}\n0 none refused 14\n0 none refused 14\n"));
}

/// "The place is the number of samples before the first to run; at n and beyond none are left, nothing is refused." (d1)
fn places(checks: &mut Checks) {
    table(checks, PAPER, &[
        ("0:1", "1 10000 0 0 0 0 done"), ("0:2", "2 8000 16 0 0 0 done"), ("0:3", "3 8000 0 0 0 0 done"),
        ("0:4", "3 8000 0 0 0 0 done"), ("0:0", "0 none done"),
        ("1:1", "1 8000 16 0 0 0 done"), ("1:2", "2 8000 0 0 0 0 done"), ("1:3", "2 8000 0 0 0 0 done"), ("1:0", "0 none done"),
        // Without the 7 the press has no use, and start stands.
        ("2:1", "1 10000 0 0 0 0 done"), ("2:9", "1 10000 0 0 0 0 done"), ("2:0", "0 none done"),
        ("3:1", "0 none done"), ("3:0", "0 none done"), ("4:1", "0 none done"), ("4:0", "0 none done"),
        ("18446744073709551615:1", "0 none done"), ("18446744073709551615:0", "0 none done"),
        ("0:2,2:9", "2 8000 16 0 0 0 done | 1 8000 0 0 0 0 done"),
        ("0:1,1:1,2:1,3:1", "1 10000 0 0 0 0 done | 1 8000 16 0 0 0 done | 1 8000 0 0 0 0 done | 0 none done"),
    ]);
    for calls in ["0:0", "0:1", "1:1", "18446744073709551615:18446744073709551615"] {
        checks.equal("n = 0", told_of(6, 0, "000000060106", calls), "0 none done".into());
    }
}

/// "The ride's type byte is not looked at, 0 or 99 included: no 7." (d2) "The session's train type rules": T is 160 for type 6,
/// 80 for type 1, and start gives 100.
fn train_type(checks: &mut Checks) {
    for byte in 0..=255 {
        let ride = hex(&recorded(byte, &samples(PAPER)));
        checks.equal("type 6", told_of(6, 0, &ride, "0:1"), "1 10000 0 0 0 0 done".into());
        checks.equal("type 1", told_of(1, 0, &ride, "0:1"), "1 8000 0 0 0 0 done".into());
        checks.equal("type 6", told_of(6, 0, &ride, "0:3"), "3 8000 0 0 0 0 done".into());
        // The session's own is judged at its opening, before any recording: 180 km/h is above vmax.
        let wanted = if (1..=6).contains(&byte) { "0 none refused 14" } else { "refused 7" };
        checks.equal("opening", told_of(byte, 9, "00", "0:0"), wanted.into());
    }
}

/// "14, then 8, also at quota 0 or past the end, then 9, 10, 11." (d3)
fn order(checks: &mut Checks) {
    let bad_recordings = [
        "-", "00", "0000000601", "00000012010600000d000001", "000000060106000000000001", "00000007010600",
        "0000000b01060000000000",
        "000000060006", "000000060206", "000000000106", "0000ea6c0106", "010000060106", "00000600",
    ];
    for recording in bad_recordings {
        for steps in [0, 8, 9, 255] {
            for calls in ["0:0", "0:1", "1:1", "9:0", "18446744073709551615:18446744073709551615"] {
                checks.equal(recording, told_of(6, steps, recording, calls), "0 none refused 14".into());
            }
        }
    }
    let places = ["0:0", "0:1", "0:3", "1:1", "2:0", "3:1", "4:1", "18446744073709551615:0", "18446744073709551615:1"];
    for ride in [PAPER, BAD_SECOND, "0/13", "1001", "1/0/0/2"] {
        for calls in places {
            for steps in [9, 10, 128, 255] {
                checks.equal(ride, told_of(6, steps, &recording(ride), calls), "0 none refused 8".into());
            }
            checks.equal(ride, told_of(6, 8, &recording(ride), calls), told(ride, calls));
        }
    }
    checks.equal("8, n = 0", told_of(6, 9, "000000060106", "0:0"), "0 none refused 8".into());
    let wanted = "0 none refused 8 | 0 none refused 8 | 0 none refused 8";
    checks.equal("8 stays", told_of(6, 9, &recording(PAPER), "0:0,0:3,3:1"), wanted.into());
    table(checks, "1001/13/0/2", &[("0:1", "0 none refused 9 at 0")]);
    table(checks, "1001/0/0/2", &[("0:1", "0 none refused 10 at 0")]);
    table(checks, "1000/0/0/2", &[("0:1", "0 none refused 11 at 0")]);
}

/// "A refused sample gives its number, its position as a place (place + run), last answer or none, session before it, number
/// run." (d4)
fn refused(checks: &mut Checks) {
    table(checks, BAD_SECOND, &[
        ("0:3", "1 10000 0 0 0 0 refused 9 at 1"), ("0:2", "1 10000 0 0 0 0 refused 9 at 1"), ("1:1", "0 none refused 9 at 1"),
        ("0:3,1:2,2:1", "1 10000 0 0 0 0 refused 9 at 1 | 0 none refused 9 at 1 | 1 10000 0 0 0 0 done"),
    ]);
    table(checks, "0, 0, 1001", &[
        ("0:9", "2 10000 0 0 0 0 refused 10 at 2"), ("1:9", "1 10000 0 0 0 0 refused 10 at 2"), ("2:9", "0 none refused 10 at 2"),
    ]);
    // Whether a mode change is 11 is the session's: BTS gives 80, and a sample in CONV with pulses is 11 from there.
    table(checks, "100, 0/0/0/2", &[
        ("0:2", "1 10000 0 0 0 0 refused 11 at 1"), ("1:1", "1 8000 0 0 0 0 done"),
        ("1:1,0:1", "1 8000 0 0 0 0 done | 0 none refused 11 at 0"),
        ("0:2,1:1", "1 10000 0 0 0 0 refused 11 at 1 | 0 none refused 11 at 1"),
    ]);
    // The session before it: the refused sample is no sample of the window, whose age is 29 and then 30. Row 4 gives 7820, 7800.
    table(checks, "100/7, 29×100, 100/13, 100, 100/0/16", &[
        ("0:40,31:1", "30 7820 16 0 0 0 refused 9 at 30 | 1 7800 0 1 0 0 done"),
        ("0:29,29:2,30:1", "29 7840 16 0 0 0 done | 1 7820 16 0 0 0 refused 9 at 30 | 0 none refused 9 at 30"),
        ("0:29,29:2,31:2", "29 7840 16 0 0 0 done | 1 7820 16 0 0 0 refused 9 at 30 | 2 7780 0 1 0 0 done"),
        ("0:29,32:1,31:1", "29 7840 16 0 0 0 done | 1 7820 0 0 0 0 done | 1 7800 0 0 0 0 done"),
    ]);
}

/// "A bad sample just behind the quota is not looked at." (d5) Nor is one before the place.
fn not_looked_at(checks: &mut Checks) {
    for bad in ["100/13", "1001", "0/0/2048", "0/0/0/3"] {
        table(checks, &format!("0, {bad}"), &[("0:1", "1 10000 0 0 0 0 done"), ("0:1,1:0", "1 10000 0 0 0 0 done | 0 none done")]);
        table(checks, &format!("{bad}, 0"), &[("1:1", "1 10000 0 0 0 0 done"), ("0:0", "0 none done")]);
    }
    table(checks, "100, 0/0/0/2", &[("0:1", "1 10000 0 0 0 0 done")]);
    table(checks, "1/0/0/2, 0", &[("1:1", "1 10000 0 0 0 0 done")]);
}

/// "Two quotas, the second from where an unrefused first ended, give what one of their sum gives, the first's answer standing if
/// the second runs none." "If the second of two quotas is refused, the sum is refused at that position, runs added, the first's
/// answer standing if the second ran none." (d6)
fn two_quotas(checks: &mut Checks) {
    table(checks, PAPER, &[
        ("0:3", "3 8000 0 0 0 0 done"), ("0:1,1:2", "1 10000 0 0 0 0 done | 2 8000 0 0 0 0 done"),
        ("0:2,2:0", "2 8000 16 0 0 0 done | 0 none done"), ("0:2", "2 8000 16 0 0 0 done"),
        ("0:0,0:2", "0 none done | 2 8000 16 0 0 0 done"), ("0:5,3:5", "3 8000 0 0 0 0 done | 0 none done"),
    ]);
    table(checks, "0, 100/7, 100/0/16, 100/13", &[
        ("0:2,2:5", "2 8000 16 0 0 0 done | 1 8000 0 0 0 0 refused 9 at 3"), ("0:7", "3 8000 0 0 0 0 refused 9 at 3"),
        ("0:3,3:1", "3 8000 0 0 0 0 done | 0 none refused 9 at 3"), ("0:4", "3 8000 0 0 0 0 refused 9 at 3"),
        ("0:2,2:1", "2 8000 16 0 0 0 done | 1 8000 0 0 0 0 done"), ("0:3", "3 8000 0 0 0 0 done"),
    ]);
}

/// "Place, quota and their sums never wrap." (d7) Two samples are left at 1, one at 2, none from 3 on.
fn never_wraps(checks: &mut Checks) {
    let (two, one, none) = ("2 8000 0 0 0 0 done", "1 10000 0 0 0 0 done", "0 none done");
    for (place, quota, wanted) in [
        ("1", "18446744073709551614", two), ("1", TOP, two), ("2", "18446744073709551613", one),
        ("2", "18446744073709551614", one), ("2", TOP, one), ("1", "4294967296", two), ("1", "4294967297", two),
        ("1", "9223372036854775808", two), ("1", "3074457345618258603", two), (TOP, "1", none), (TOP, "2", none),
        (TOP, TOP, none), ("18446744073709551614", "4", none), ("4294967296", "1", none), ("4294967297", "1", none),
        ("9223372036854775808", "1", none), ("9223372036854775809", "1", none), ("3074457345618258603", "1", none),
        ("65536", "1", none), ("256", "1", none),
    ] {
        checks.equal("great numbers", told(PAPER, &format!("{place}:{quota}")), wanted.into());
    }
}

/// Calls that begin where something stands.
fn in_the_middle(checks: &mut Checks) {
    // Stop is 40 with lamp 8, and 10 is lit at standstill. A rearm in the next call, or none there.
    table(checks, "0/8, 0/0/1024, 0", &[
        ("0:1,1:1", "1 4000 1280 4 0 0 done | 1 4000 256 0 0 0 done"),
        ("0:1,2:1", "1 4000 1280 4 0 0 done | 1 4000 1280 4 0 0 done"),
        ("1:1,0:1", "1 10000 0 0 0 0 done | 1 4000 1280 4 0 0 done"),
    ]);
    // The last code is the session's: the 8 again is not read, and the press arms override for another.
    table(checks, "0/8/128, 0/8", &[
        ("0:1", "1 4000 256 0 0 0 done"), ("0:1,1:1", "1 4000 256 0 0 0 done | 1 4000 256 0 0 0 done"),
        ("0:1,0:1", "1 4000 256 0 0 0 done | 1 4000 384 0 0 0 done"), ("1:1", "1 4000 1280 4 0 0 done"),
    ]);
    // A window at age 29: missed in the next sample, be it the next of the ride, its last, or its first, which is read anew.
    table(checks, "100/7, 40×100", &[
        ("0:30,30:1", "30 7820 16 0 0 0 done | 1 7800 0 1 0 0 done"),
        ("0:30,40:1", "30 7820 16 0 0 0 done | 1 7800 0 1 0 0 done"),
        ("0:30,0:1", "30 7820 16 0 0 0 done | 1 8000 16 1 0 0 done"), ("30:1", "1 10000 0 0 0 0 done"),
    ]);
    // Stop alongside at age 199, and over at 200: clear, T 160.
    table(checks, "0/0/128, 50/8, 50/3, 200×50", &[
        ("0:202,202:1", "202 4000 0 0 0 0 done | 1 16000 0 0 0 0 done"),
        ("0:202,2:0,3:1", "202 4000 0 0 0 0 done | 0 none done | 1 16000 0 0 0 0 done"),
        ("0:201,202:1", "201 4000 0 0 0 0 done | 1 4000 0 0 0 0 done"),
    ]);
    // BTS, and out of it again.
    table(checks, "0/0/0/2, 0/0/0/2, 0", &[
        ("0:1,1:1,2:1", "1 8000 0 0 0 0 done | 1 8000 0 0 0 0 done | 1 10000 0 0 0 0 done"),
        ("0:1,2:1,1:1", "1 8000 0 0 0 0 done | 1 10000 0 0 0 0 done | 1 8000 0 0 0 0 done"),
    ]);
    // Limit and icon: the first 64 answers the 10, the second takes the limit off; 32 makes the 9 an unprotected crossing.
    table(checks, "0/10, 0/0/64", &[("0:1,1:1,1:1", "1 10000 64 0 0 1 done | 1 10000 64 0 0 1 done | 1 10000 0 0 0 0 done")]);
    table(checks, "0/9, 0/0/32", &[("0:1,1:1,1:1", "1 10000 96 0 0 0 done | 1 10000 0 0 2 0 done | 1 10000 0 0 2 0 done")]);
    // A 12 brakes and alarms; without it the rearm works.
    table(checks, "0/12, 0/0/1024", &[("0:1,0:1,1:1", "1 10000 3072 6 0 0 done | 1 10000 3072 6 0 0 done | 1 10000 0 0 0 0 done")]);
}

/// "session out of its ranges": steps 0..8 (R 46). A limit that is set has none, whatever the session held before: 60 km/h, and
/// not 100.
fn steps(checks: &mut Checks) {
    let mut card = unhex(CARD_A);
    card[31..35].copy_from_slice(&[0x3c, 0x3c, 0, 1]);
    for steps in 0..=8 {
        let case = format!("06 {steps:02x} {} {} 0:1", hex(&card), recording("0/10"));
        checks.equal("steps without a limit", answer_replay(&case), "1 6000 64 0 0 1 done\n".into());
    }
    let bytes = unhex(&recording(PAPER));
    for steps in 0..=12 {
        let mut session = on(CARD_A);
        run(&mut session, "0/10");
        session.limit.as_mut().unwrap().steps = steps;
        let end = if steps <= 8 { End::Done } else { End::Refused(8) };
        checks.equal("steps of a limit", replay(&bytes, 0, 0, &Handed::new(session)).end, end);
    }
}

/// "length not 6 + 6n with n ≤ 10,000".
fn longest(checks: &mut Checks) {
    let whole = recording("10000×0");
    for (calls, wanted) in [
        ("0:10000", "10000 10000 0 0 0 0 done"), ("9999:9", "1 10000 0 0 0 0 done"), ("10000:1", "0 none done"),
        ("0:9999,9999:1", "9999 10000 0 0 0 0 done | 1 10000 0 0 0 0 done"),
    ] {
        checks.equal("10,000 samples", told_of(6, 0, &whole, calls), wanted.into());
    }
    let longer = recording("10001×0");
    for calls in ["0:0", "0:1", "10001:1"] {
        checks.equal("10,001 samples", told_of(6, 0, &longer, calls), "0 none refused 14".into());
    }
}

fn splits(checks: &mut Checks) {
    let split = |train: &str, card: &str, recording: &str| answer_splits(&format!("{train} {card} {recording}"));
    let card = hex(&unhex(CARD_A));
    let wanted = "0 none done\n3 8000 0 0 0 0 done\n1 10000 0 0 0 0 done\n2 8000 0 0 0 0 done\n\
        2 8000 16 0 0 0 done\n1 8000 0 0 0 0 done\n3 8000 0 0 0 0 done\n0 none done\n";
    checks.equal("splits", split("06", &card, &recording(PAPER)), wanted.into());
    let wanted = "0 none done\n1 10000 0 0 0 0 refused 9 at 1\n1 10000 0 0 0 0 done\n0 none refused 9 at 1\n\
        1 10000 0 0 0 0 refused 9 at 1\n0 none refused 9 at 1\n1 10000 0 0 0 0 refused 9 at 1\n0 none done\n";
    checks.equal("splits, refused", split("06", &card, &recording(BAD_SECOND)), wanted.into());
    checks.equal("splits of none", split("06", &card, "000000060106"), "0 none done\n".repeat(2));
    checks.equal("splits of a 14", split("06", &card, "0000000c0106000000000001ff"), "0 none refused 14\n".repeat(4));
    checks.equal("splits of no bytes", split("06", &card, "-"), "0 none refused 14\n".repeat(2));
    checks.equal("splits, 7", split("07", &card, &recording(PAPER)), "refused 7\n".into());
    checks.equal("splits, 1", split("06", "-", &recording(PAPER)), "refused 1\n".into());
}

/// "decimal digits of any size".
fn quotas(checks: &mut Checks) {
    for (digits, wanted) in [
        ("0", Some(0)), ("000", Some(0)), ("7", Some(7)), ("007", Some(7)), ("10000", Some(10_000)), (TOP, Some(u64::MAX)),
        ("18446744073709551614", Some(u64::MAX - 1)), ("0018446744073709551614", Some(u64::MAX - 1)),
        ("18446744073709551616", Some(u64::MAX)), ("18446744073709551625", Some(u64::MAX)),
        ("184467440737095516150", Some(u64::MAX)), ("99999999999999999999", Some(u64::MAX)),
        ("36893488147419103232", Some(u64::MAX)),
        ("", None), ("-1", None), ("+1", None), ("1 ", None), ("1x", None), ("0x1", None),
    ] {
        checks.equal(digits, quota(digits), wanted);
    }
}

/// What `replay` prints behind its heading.
fn program(checks: &mut Checks) {
    let prints = |card: &str, bytes: &str, quotas: &[u64]| {
        let mut out = Vec::new();
        print(&unhex(card), &unhex(bytes), quotas, &mut out).unwrap();
        let text = String::from_utf8(out).unwrap();
        let lines = text.strip_prefix("place ran limit lamps cause icon standing\n").expect("the heading");
        lines.trim_end().replace('\n', " | ")
    };
    let (good, bad) = (recording(PAPER), recording(BAD_SECOND));
    let table: [(&str, &str, &[u64], &str); 16] = [
        (CARD_A, &good, &[2, 9], "0 2 8000 16 0 0 0 | 2 1 8000 0 0 0 0"),
        (CARD_A, &good, &[0], "0 0 none"),
        (CARD_A, &good, &[3], "0 3 8000 0 0 0 0"),
        (CARD_A, &good, &[9, 1, 0], "0 3 8000 0 0 0 0 | 3 0 none | 3 0 none"),
        (CARD_A, &good, &[1, 0, 1, u64::MAX], "0 1 10000 0 0 0 0 | 1 0 none | 1 1 8000 16 0 0 0 | 2 1 8000 0 0 0 0"),
        (CARD_A, &bad, &[1, 5, 7], "0 1 10000 0 0 0 0 | 1 0 none | refused 9 at 1"),
        (CARD_A, &bad, &[5, 1], "0 1 10000 0 0 0 0 | refused 9 at 1"),
        (CARD_A, &bad, &[1, 0, 0], "0 1 10000 0 0 0 0 | 1 0 none | 1 0 none"),
        (CARD_A, "000000060106", &[0, 1], "0 0 none | 0 0 none"),
        (CARD_A, "", &[1], "refused 14"),
        (CARD_A, "000000060107", &[1], "refused 7"),
        (CARD_A, "000000060100", &[0], "refused 7"),
        (CARD_A, "000000060207", &[0], "refused 14"),
        (CARD_A, "000000060101", &[1], "0 0 none"),
        ("", &good, &[1], "refused 1"),
        ("002700", "", &[1, 2], "refused 2"),
    ];
    for (card, bytes, quotas, wanted) in table {
        checks.equal(&format!("replay {quotas:?} of {bytes}"), prints(card, bytes, quotas), wanted.into());
    }
}
