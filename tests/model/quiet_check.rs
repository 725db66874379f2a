//! Checks of the quiet pickup: document 02 c), as its readings c1 to c8 have it. Train type 6, tick 100.

use crate::card::{self, Settings};
use crate::cards::{unhex, CARD_A, CARD_R, CARD_R2};
use crate::check::{Checks, SHEET};
use crate::desk::{Answer, Sample, Session, BTS, CAUSE_TOP, CODE_TOP, CONV, QUIET, QUIET_CAUSE};
use crate::make::Rng;
use crate::notation::{on, run};
use crate::pieces::{answers, calls};
use crate::ride;
use crate::steer::make_ride;
use crate::tone::{beacon_code, classify, sheet};

const REARM: u16 = 1024;
const LAMP_10: u16 = 1024;
const LAMP_11: u16 = 2048;

pub fn all(checks: &mut Checks) {
    tones(checks);
    each_sample(checks);
    both_modes(checks);
    mode_decides(checks);
    functions(checks);
    read_again(checks);
    no_beacon(checks);
    lowest_cause(checks);
    ranges(checks);
    line(checks);
    in_its_place(checks);
}

/// What a sample is answered with: limit, lamps, cause, icon and standing limit, as `model run` prints them.
fn words(result: &Result<Answer, u8>) -> String {
    match result {
        Ok(a) => format!("{} {} {} {} {}", a.s, a.lamps, a.cause, a.icon, a.limit as u8),
        Err(number) => format!("refused {number}"),
    }
}

/// The last answer of each ride on a card.
fn last(checks: &mut Checks, card: &str, table: &[(&str, &str)]) {
    for (text, wanted) in table {
        checks.equal(text, words(&run(&mut on(card), text).pop().unwrap()).as_str(), *wanted);
    }
}

/// Every answer of a ride on a card.
fn whole(checks: &mut Checks, card: &str, text: &str, wanted: &[&str]) {
    let got: Vec<String> = run(&mut on(card), text).iter().map(words).collect();
    checks.equal(text, got, wanted.iter().map(|line| line.to_string()).collect());
}

/// "The classifier's three answers stay; the ride's code of "nothing" (not-a-number, infinities, outside all rows) is 12, of
/// permanent 0." (c1) Beside the ends of every row, and over the whole range of bit patterns.
fn tones(checks: &mut Checks) {
    let area = unhex(SHEET);
    let rows = sheet(&area).unwrap();
    let code = |bits: u32| classify(&area, f32::from_bits(bits)).map(|tone| beacon_code(&tone));
    for bits in [0x7fc00000, 0xffc00000, 0x7f800001, 0xffffffff, 0x7f800000, 0xff800000, 0, 0x80000000, 0xc25c0000] {
        checks.equal(&format!("tone {bits:08x}"), code(bits), Ok(12));
    }
    for (i, row) in rows.iter().enumerate() {
        for bits in [row.low, row.centre, row.high].map(f32::to_bits) {
            checks.equal("a row's code", code(bits), Ok(i as u8));
        }
        for bits in [row.low.to_bits() - 1, row.high.to_bits() + 1] {
            checks.equal("beside a row", code(bits), Ok(12));
        }
    }
    for high in 0..=0xffff {
        let tone = f32::from_bits(high << 16 | 0x8000);
        let heard = rows.iter().position(|row| row.low <= tone && tone <= row.high);
        checks.equal("a tone's code", code(tone.to_bits()), Ok(heard.map_or(QUIET, |i| i as u8)));
    }
    let mut desk = on(CARD_A);
    let beacon = code(f32::NAN.to_bits()).unwrap();
    let answer = desk.sample(Sample { beacon, mode: CONV, ..Sample::default() });
    checks.equal("not-a-number at the desk", words(&answer).as_str(), "10000 3072 6 0 0");
    let beacon = code(rows[0].centre.to_bits()).unwrap();
    let answer = on(CARD_A).sample(Sample { beacon, mode: CONV, ..Sample::default() });
    checks.equal("the permanent tone at the desk", words(&answer).as_str(), "10000 0 0 0 0");
}

/// "Every sample with 12, not only the first, lights lamp 11 (2048) and in CONV raises cause 6: 0/12, 0/12/1024, 0/0/1024
/// have causes 6, 6, 0." (c2) "0/12 at standstill has lamps 3072." (c7)
fn each_sample(checks: &mut Checks) {
    whole(checks, CARD_A, "0/12, 0/12/1024, 0/0/1024", &["10000 3072 6 0 0", "10000 3072 6 0 0", "10000 0 0 0 0"]);
    whole(checks, CARD_A, "50, 50/12, 50/12, 50",
        &["10000 0 0 0 0", "10000 2048 6 0 0", "10000 2048 6 0 0", "10000 0 6 0 0"]);
    last(checks, CARD_A, &[
        ("0/12", "10000 3072 6 0 0"), ("0/12, 0", "10000 1024 6 0 0"), ("0/12, 0, 0/0/1024", "10000 0 0 0 0"),
        ("20×0/12/1024", "10000 3072 6 0 0"), ("20×0/12/1024, 0/0/1024", "10000 0 0 0 0"),
        ("0/12/1024, 0/0/1024, 0/12", "10000 3072 6 0 0"), ("0/12, 0/0/1024, 0/12, 0/0/1024", "10000 0 0 0 0"),
        // Samples with 12 and without pulses count as standing, as any others.
        ("1/12, 8×0/12, 0/0/1024", "10000 0 6 0 0"), ("1/12, 9×0/12, 0/0/1024", "10000 0 0 0 0"),
        ("1/12, 9×0/12", "10000 2048 6 0 0"), ("1/12, 10×0/12", "10000 3072 6 0 0"),
    ]);
}

/// "The lamp lights in both modes and is dark in the next sample without 12." (c3) "outside BTS raises cause 6" (02 c).
fn both_modes(checks: &mut Checks) {
    whole(checks, CARD_A, "0/0/0/2, 50/12/0/2, 50/12/0/2, 50/0/0/2",
        &["8000 0 0 0 0", "8000 2048 0 0 0", "8000 2048 0 0 0", "8000 0 0 0 0"]);
    last(checks, CARD_A, &[
        ("50/12", "10000 2048 6 0 0"), ("50/12, 50", "10000 0 6 0 0"), ("50/12, 50/7", "8000 16 6 0 0"),
        ("0/0/0/2, 0/12/0/2, 0/8/0/2", "8000 0 0 0 0"), ("0/0/0/2, 40×0/12/0/2", "8000 2048 0 0 0"),
        // Over 85 km/h there: 5, and no 6 beside it.
        ("0/0/0/2, 237/12/0/2", "8000 2048 5 0 0"), ("0/0/0/2, 236/12/0/2", "8000 2048 0 0 0"),
    ]);
}

/// "The mode after the mode step decides: entering BTS with 12 raises nothing, leaving with 12 raises 6." (c4) So a rearm
/// works in the entering sample and in BTS, and in the leaving one it does not.
fn mode_decides(checks: &mut Checks) {
    whole(checks, CARD_A, "0/0/0/2, 0/12/0/2, 0/12", &["8000 0 0 0 0", "8000 2048 0 0 0", "10000 3072 6 0 0"]);
    last(checks, CARD_A, &[
        ("0/12/0/2", "8000 2048 0 0 0"), ("0/0/0/2, 0/12", "10000 3072 6 0 0"), ("0/12/0/2, 0", "10000 0 0 0 0"),
        ("0/12/0/2, 0/12, 0/12/0/2", "8000 3072 6 0 0"), ("0/12, 0/12/0/2", "8000 3072 6 0 0"),
        ("0/12, 0/12/1024/2", "8000 2048 0 0 0"), ("0/12, 0/0/0/2, 0/12/1024/2", "8000 2048 0 0 0"),
        ("0/12, 0/0/0/2, 0/12/1024", "10000 3072 6 0 0"), ("0/8, 0/12/0/2, 0/12/1024", "10000 3072 4 0 0"),
        ("0/8, 0/12/0/2, 0/12/1024/2", "8000 2048 0 0 0"),
    ]);
}

/// "Function 3 does not matter." (c4) "no function bit governs it" (02 c).
fn functions(checks: &mut Checks) {
    for functions in 0..=15 {
        let mut settings = Settings { functions, ..card::read(2, &unhex(CARD_R2)).unwrap() };
        if !settings.function(2) {
            settings = Settings { x: 0, y: 0, ..settings };
        }
        let mut session = Session::open(2, settings, 6).unwrap();
        let got: Vec<String> = run(&mut session, "0/12, 0/12/0/2, 0/0/1024/2, 0/12/0/2, 0/12").iter().map(words).collect();
        let wanted = ["14000 3072 6 0 0", "10000 3072 6 0 0", "10000 0 0 0 0", "10000 2048 0 0 0", "14000 3072 6 0 0"];
        checks.equal("functions", got, wanted.map(String::from).to_vec());
    }
}

/// "12 becomes the last code in either mode: 7, 12, 7 reads both 7s." (c5) The second 7 is the stop zone's, 10 km/h, or on a
/// card without it row 4 anew; a 7 that goes on is not read again.
fn read_again(checks: &mut Checks) {
    whole(checks, CARD_R, "50/7, 50/12, 50/7", &["5000 16 0 0 0", "5000 2064 6 0 0", "1000 0 6 0 0"]);
    last(checks, CARD_R, &[
        ("50/7, 50/7", "5000 16 0 0 0"), ("50/7, 50/0, 50/7", "1000 0 5 0 0"), ("50/7, 3×50/12, 50/7", "1000 0 6 0 0"),
        ("50/7, 50/12, 50, 50/7", "1000 0 6 0 0"), ("50/7, 50, 50/12, 50/7", "1000 0 6 0 0"),
        // In BTS 10 is read by function 3. Its limit is taken off while it lasts, and comes back if it is read again.
        ("0/10/0/2, 0/12/64/2, 0/12/64/2", "10000 2048 0 0 0"),
        ("0/10/0/2, 0/12/64/2, 0/12/64/2, 0/10/0/2", "10000 64 0 0 1"),
        ("0/10/0/2, 0/10/64/2, 0/10/64/2, 0/10/0/2", "10000 0 0 0 0"), ("0/12/0/2, 0/10/0/2", "10000 64 0 0 1"),
    ]);
    last(checks, CARD_A, &[
        ("0/7, 0/12/0/2, 0/7", "8000 16 0 0 0"), ("0/7, 0/7/0/2, 0/7", "10000 0 0 0 0"),
        ("0/7/0/2, 0/12/0/2, 0/7/0/2, 0/7", "10000 0 0 0 0"), ("0/7/0/2, 0/12, 0/7", "8000 1040 6 0 0"),
        ("0/12, 0/7", "8000 1040 6 0 0"), ("0/10/0/2, 0/12/0/2, 0/10/0/2", "8000 0 0 0 0"),
        ("50/7, 21×50/12, 50", "7960 16 6 0 0"), ("50/7, 21×50/12, 50/7", "8000 16 6 0 0"),
        ("50/7, 22×50/7", "7960 16 0 0 0"),
    ]);
}

/// "Else it reads, sets, displaces, ends, parts and speaks nothing." (c5) Windows, beacon 3's option, an armed override, a
/// reminder, a limit and a crossing go through it, and are answered in it.
fn no_beacon(checks: &mut Checks) {
    last(checks, CARD_A, &[
        ("50/1", "10000 103 0 0 0"), ("50/1, 50/12", "10000 2151 6 0 0"), ("50/1, 50/12/1", "16000 2048 6 0 0"),
        ("50/1, 50/12, 50/0/1", "16000 0 6 0 0"), ("50/7, 29×50/12", "7820 2064 6 0 0"),
        ("50/7, 29×50/12, 50", "7800 0 6 0 0"), ("50/9, 50/12/32", "10000 2048 6 2 0"),
        ("50/10, 50/12", "10000 2112 6 0 1"), ("50/10, 50/12/64, 50/12", "10000 2112 6 0 1"),
        ("50/10, 50/12/64, 50/12/64", "10000 2048 6 0 0"),
        // Beacon 8 is passed: the override is armed still.
        ("0/0/128, 0/12, 0/0/1024, 0/8", "4000 256 0 0 0"), ("0/12/128, 0/0/1024, 0/8", "4000 256 0 0 0"),
        ("0/12, 0/0/1024, 0/8", "4000 1280 4 0 0"),
    ]);
    last(checks, CARD_R, &[
        ("200/3", "16000 32 0 0 0"), ("200/3, 200/12", "16000 2080 6 0 0"), ("200/3, 200/12, 200/0/32", "15500 0 6 1 0"),
        ("200/3, 200/12/32", "15500 2048 6 1 0"),
        ("200/4, 17×200/12", "14000 2048 6 0 0"), ("200/4, 18×200/12", "14000 2048 6 1 0"),
        ("0/0/128, 100/8, 199×100/12", "4000 2048 6 0 0"), ("0/0/128, 100/8, 200×100/12", "4000 2176 6 0 0"),
    ]);
}

/// "The lowest cause of a sample stands: 300/12 is 5. On a braked desk 6 only keeps a rearm from working (R43)." (c6) 4
/// cannot come with it, since it comes by beacon 8.
fn lowest_cause(checks: &mut Checks) {
    last(checks, CARD_A, &[
        ("300/12", "10000 2048 5 0 0"), ("291/12", "10000 2048 6 0 0"), ("292/12", "10000 2048 5 0 0"),
        ("50/7, 29×50, 50/12", "7800 2048 1 0 0"), ("50/7, 28×50, 50/12, 50", "7800 0 6 0 0"),
        ("50/9, 29×50, 50/12", "10000 2048 2 2 0"), ("50/9, 28×50, 50/12, 50", "10000 0 6 2 0"),
        ("0/8, 0/12", "4000 3328 4 0 0"), ("0/8, 0/12/1024", "4000 3328 4 0 0"),
        ("0/8, 0/12/1024, 0/0/1024", "4000 256 0 0 0"),
        ("300, 9×0, 0/12/1024", "10000 3072 5 0 0"), ("300, 9×0, 0/12, 0/0/1024", "10000 0 0 0 0"),
        ("50/12, 300", "10000 0 6 0 0"), ("50/12, 50/8", "4000 256 6 0 0"),
    ]);
    last(checks, CARD_R2, &[
        ("0/0/128, 100/8, 249×100, 100/12", "4000 2048 3 0 0"), ("0/0/128, 100/8, 248×100, 100/12, 100", "4000 0 6 0 0"),
        ("0/0/128, 100/8, 248×100, 100/12", "4000 2176 6 0 0"),
    ]);
}

/// "Ranges: code 0..12, cause 0..6. No button 11: buttons above 2047 stay 9." (c7) A refused 12 changes nothing: the 7
/// behind it goes on.
fn ranges(checks: &mut Checks) {
    last(checks, CARD_A, &[
        ("0/13", "refused 9"), ("0/255", "refused 9"), ("0/13/0/2", "refused 9"), ("0/0/2048", "refused 9"),
        ("0/12/2048", "refused 9"), ("0/0/4095", "refused 9"), ("0/12/2047", "10000 3200 6 0 0"), ("0/12/0/3", "refused 9"),
        ("1001/13", "refused 9"), ("1001/12", "refused 10"), ("1/12/0/2", "refused 11"), ("1, 0/12/0/2", "refused 11"),
        ("1, 0/13/0/2", "refused 9"),
    ]);
    last(checks, CARD_R, &[
        ("50/7, 1001/12, 50/7", "5000 16 0 0 0"), ("50/7, 1/12/0/2, 50/7", "5000 16 0 0 0"),
        ("50/7, 50/12/2048, 50/7", "5000 16 0 0 0"), ("50/7, 50/13, 50/7", "5000 16 0 0 0"),
        ("0/12, 1001/0, 0/0/1024", "14000 0 0 0 0"), ("50/12, 50/13, 50", "14000 0 6 0 0"),
    ]);
    for code in 0..=255 {
        let accepted = on(CARD_A).sample(Sample { beacon: code, mode: CONV, ..Sample::default() }).is_ok();
        checks.equal("a code", accepted, code <= CODE_TOP);
    }
    let mut session = on(CARD_A);
    run(&mut session, "0/12");
    checks.equal("both tops", (session.last_code, session.cause), (CODE_TOP, CAUSE_TOP));
    checks.equal("their numbers", (CODE_TOP, CAUSE_TOP), (12, 6));
}

/// "Amended with the sample: ... serial byte 2. The recording's version stays 1." (c8)
fn line(checks: &mut Checks) {
    let said = |text: &str| answers(&unhex(CARD_A), &calls(text));
    checks.equal("12", said("0000000C0106 00000C000001/."), "1 10000 3072 6\nopen\ndone\n".into());
    checks.equal("12 in pieces", said("0000000C0106 0000/0C/000001/."), "open\nopen\n1 10000 3072 6\nopen\ndone\n".into());
    checks.equal("13", said("0000000C0106 00000D/000001/."), "refused 9\n".repeat(3));
    checks.equal("version 2", said("0000000C0206 00000C000001/."), "refused 14\n".repeat(2));
}

/// How often rides by seed met what they were made for: cause 6 began to stand; it alone kept a rearm from working; a rearm
/// worked beside a 12 in BTS; a lower cause stood beside it.
#[derive(Default)]
struct Met {
    began: u32,
    kept: u32,
    rearmed_in_bts: u32,
    lower: u32,
}

/// Rides by seed with 12 written over some of their codes.
fn in_its_place(checks: &mut Checks) {
    let mut met = Met::default();
    let kinds = [("random", 400, 80), ("answers", 800, 80), ("drive", 800, 60), ("long", 2000, 20), ("stand", 100, 200),
        ("quiet", 150, 200), ("pairs", 250, 100)];
    for (kind, size, seeds) in kinds {
        for seed in 1..=seeds {
            let (card, bytes) = make_ride(kind, seed, size).unwrap();
            let mut rng = Rng::new("quiet", seed);
            let chance = rng.pick(&[2, 5, 10, 50]);
            let recording = ride::recording(&bytes).unwrap();
            let samples: Vec<(bool, Sample)> = recording.samples.iter().map(|sample| {
                (sample.beacon == QUIET || rng.chance(chance), *sample)
            }).collect();
            let session = ride::open(&card, &bytes).unwrap().0;
            beside_0(checks, &format!("{kind} {seed}"), session, &samples, &mut met);
        }
    }
    let counts = [met.began, met.kept, met.rearmed_in_bts, met.lower];
    checks.equal("many of each", counts.iter().all(|count| *count > 30), true);
}

/// A ride with 12 written over the codes that are marked, beside the same with 0 written there. Behind both the next code
/// counts as changed, so all but the cause and the lamps 10 and 11 is the same. Lamp 11 is lit just at each 12. The brake
/// follows from the causes that the ride with 0 has, and from 6 at each 12 in CONV. The ride with 0 is an old one: it has
/// neither lamp 11 nor cause 6.
fn beside_0(checks: &mut Checks, name: &str, session: Session, samples: &[(bool, Sample)], met: &mut Met) {
    let (mut new, mut old) = (session.clone(), session);
    let (mut cause, mut stood) = (0, 10);
    for (quiet, sample) in samples.iter().copied() {
        let with = |code: u8| Sample { beacon: if quiet { code } else { sample.beacon }, ..sample };
        let (ours, theirs) = match (new.sample(with(QUIET)), old.sample(with(0))) {
            (Ok(ours), Ok(theirs)) => (ours, theirs),
            (ours, theirs) => return checks.equal(name, ours.err(), theirs.err()),
        };
        let same = |answer: Answer| (answer.s, answer.lamps & 0x3ff, answer.icon, answer.limit);
        checks.equal(name, same(ours), same(theirs));
        checks.equal(name, (old.arisen.contains(&QUIET_CAUSE), theirs.lamps & LAMP_11), (false, 0));
        let mut causes = old.arisen.clone();
        if quiet && sample.mode == CONV {
            causes.push(QUIET_CAUSE);
        }
        stood = if sample.pulses == 0 { stood + 1 } else { 0 };
        let rearm = sample.buttons & REARM != 0 && stood >= 10;
        let before = cause;
        if before == 0 {
            cause = causes.iter().copied().min().unwrap_or(0);
        } else if rearm && causes.is_empty() {
            cause = 0;
        }
        let lamp_10 = if cause != 0 && stood >= 10 { LAMP_10 } else { 0 };
        let lamp_11 = if quiet { LAMP_11 } else { 0 };
        checks.equal(name, (ours.cause, ours.lamps & !0x3ff), (cause, lamp_10 | lamp_11));
        checks.equal(name, new.last_code <= CODE_TOP && new.cause <= CAUSE_TOP, true);
        met.began += (before == 0 && cause == QUIET_CAUSE) as u32;
        met.kept += (before != 0 && rearm && causes == [QUIET_CAUSE]) as u32;
        met.rearmed_in_bts += (before != 0 && cause == 0 && quiet && sample.mode == BTS) as u32;
        met.lower += (before == 0 && causes.len() > 1 && causes.contains(&QUIET_CAUSE)) as u32;
    }
}
