//! The model's own checks: the paper's ride, "Both sides of each line", tones and cards; those of the receiver are in
//! receive_check.rs, those of standstill in stand_check.rs, those of the quiet pickup in quiet_check.rs, those of replay in
//! replay_check.rs and replay_laws.rs, those of the reason in why_check.rs and why_printed_check.rs, those of pairs in
//! pairs_check.rs and pairs_laws.rs. tests/compare/run has it print the lessons and the readings too.

use crate::card::{self, refused, refused_at, Row, Settings};
use crate::cards::{unhex, CARD_A, CARD_P, CARD_R, CARD_R2, CARD_RL};
use crate::desk::{Answer, Main, Sample, Session};
use crate::pairs_check;
use crate::pairs_laws;
use crate::quiet_check;
use crate::receive_check;
use crate::replay_check;
use crate::replay_laws;
use crate::ride::{print, More};
use crate::stand_check;
use crate::tone::{classify, sheet, Tone};
use crate::why_check;
use crate::why_printed_check;
use std::io::{self, Write};

pub struct Checks {
    passed: u32,
    failed: Vec<String>,
}

impl Checks {
    pub fn equal<T: PartialEq + std::fmt::Debug>(&mut self, name: &str, got: T, wanted: T) {
        if got == wanted {
            self.passed += 1;
        } else {
            self.failed.push(format!("{name}: got {got:?}, wanted {wanted:?}"));
        }
    }
}

/// Prints a line for each failed check and the two counts; gives the count of the failed.
pub fn all(out: &mut impl Write) -> io::Result<usize> {
    let mut checks = Checks { passed: 0, failed: Vec::new() };
    papers_ride(&mut checks)?;
    rows_and_speed(&mut checks);
    presses(&mut checks);
    crossing_and_zone(&mut checks);
    increase_and_limit(&mut checks);
    card_lines(&mut checks);
    writer(&mut checks);
    readings(&mut checks);
    tones(&mut checks);
    receive_check::all(&mut checks);
    stand_check::all(&mut checks);
    quiet_check::all(&mut checks);
    replay_check::all(&mut checks);
    replay_laws::all(&mut checks);
    why_check::all(&mut checks);
    why_printed_check::all(&mut checks);
    pairs_check::all(&mut checks);
    pairs_laws::all(&mut checks);
    for line in &checks.failed {
        writeln!(out, "failed: {line}")?;
    }
    writeln!(out, "{} passed, {} failed", checks.passed, checks.failed.len())?;
    Ok(checks.failed.len())
}

fn settings(card: &str) -> Settings {
    card::read(2, &unhex(card)).unwrap()
}

fn open(card: &str, train: u8) -> Session {
    Session::open(unhex(card)[2], settings(card), train).unwrap()
}

fn step(session: &mut Session, pulses: u16, beacon: u8, buttons: u16) -> Answer {
    let mode = session.mode;
    session.sample(Sample { pulses, beacon, buttons, mode }).unwrap()
}

/// That many samples without beacon or button; the last one's answer.
fn run(session: &mut Session, n: usize, pulses: u16) -> Answer {
    (0..n).map(|_| step(session, pulses, 0, 0)).last().unwrap()
}

/// "Ride `000000180106 ...` prints".
fn papers_ride(checks: &mut Checks) -> io::Result<()> {
    let ride = unhex("000000180106 000000000001 006407000001 006400001001");
    let mut got = Vec::new();
    print(&unhex(CARD_A), &ride, More::No, &mut got)?;
    let wanted = "n limit lamps cause\n1 10000 0 0\n2 8000 16 0\n3 8000 0 0\n";
    checks.equal("the paper's ride", String::from_utf8(got).unwrap(), wanted.to_string());
    let refusals: [(&str, Vec<u8>, Vec<u8>, &str); 6] = [
        ("14 by length", unhex(CARD_A), ride[..23].to_vec(), "refused 14"),
        ("14 when empty", unhex(CARD_A), vec![], "refused 14"),
        ("no samples", unhex(CARD_A), unhex("000000060106"), "n limit lamps cause"),
        ("7", unhex(CARD_A), unhex("000000060107"), "refused 7"),
        ("card before recording", vec![], vec![], "refused 1"),
        ("9", unhex(CARD_A), unhex("0000000c0106 00000d000001"), "refused 9"),
    ];
    for (name, card, ride, wanted) in refusals {
        let mut got = Vec::new();
        print(&card, &ride, More::No, &mut got)?;
        let got = String::from_utf8(got).unwrap();
        checks.equal(name, got.lines().last().unwrap(), wanted);
        checks.equal(name, got.lines().next().unwrap(), "n limit lamps cause");
    }
    Ok(())
}

/// "Row 4 of card A: age 20 gives 8000; 21 gives 7980; 220 gives 4000." "S 8000, tick 100: 236 pulses free, 237 cause
/// 5."
fn rows_and_speed(checks: &mut Checks) {
    let row = settings(CARD_A).rows[4];
    for (age, wanted) in [(20, 8000), (21, 7980), (219, 4020), (220, 4000), (221, 4000), (30_000, 4000)] {
        checks.equal("row 4 of card A", row.at(age), wanted);
    }
    for (pulses, cause) in [(236, 0), (237, 5)] {
        let mut session = open(CARD_A, 6);
        let answer = step(&mut session, pulses, 7, 0);
        checks.equal("S 8000", (answer.s, answer.cause), (8000, cause));
    }
    let mut session = open(CARD_A, 6);
    let sample = Sample { pulses: 1000, mode: 1, ..Sample::default() };
    checks.equal("m 100,000", session.clone().sample(sample).map(|answer| answer.cause), Ok(5));
    checks.equal("m 100,100", session.sample(Sample { pulses: 1001, ..sample }).map(|_| 0), Err(10));
    checks.equal("11", session.sample(Sample { pulses: 1, mode: 2, ..sample }).map(|_| 0), Err(11));
}

/// "Press at 29 answers, at 30 cause 1." "Beacon 8 with override at age 99 passes, 100 cause 4."
fn presses(checks: &mut Checks) {
    for (age, cause) in [(1, 0), (29, 0), (30, 1)] {
        let mut session = open(CARD_A, 6);
        step(&mut session, 100, 7, 0);
        if age > 1 {
            run(&mut session, age - 1, 100);
        }
        let answer = step(&mut session, 100, 0, 16);
        checks.equal("press of a 7", (answer.lamps, answer.cause), (0, cause));
    }
    for (age, cause) in [(99, 0), (100, 4)] {
        let mut session = open(CARD_A, 6);
        step(&mut session, 0, 0, 128);
        run(&mut session, age - 1, 0);
        checks.equal("override", step(&mut session, 0, 8, 0).cause, cause);
    }
}

/// "Crossing turns at m 11,111, not 11,112." "Beacon 7 again at 799,999 zone, 800,000 none."
fn crossing_and_zone(checks: &mut Checks) {
    for (tick, pulses, icon) in [(41, 271, 2), (12, 926, 0)] {
        let mut session = Session::open(2, Settings { tick, ..settings(CARD_R) }, 6).unwrap();
        let answer = step(&mut session, pulses, 4, 0);
        checks.equal("crossing turns", (session.m, answer.icon), (if icon == 2 { 11_111 } else { 11_112 }, icon));
    }
    for (distance, s) in [(799_999, 1000), (800_000, 5000)] {
        let mut session = open(CARD_R, 6);
        step(&mut session, 0, 7, 0);
        step(&mut session, 0, 0, 0);
        session.main_distance = distance;
        checks.equal("stop zone", step(&mut session, 0, 7, 0).s, s);
    }
}

/// "Increase: type 2 gives 90, type 6 gives 100." "Limit final 60, type 2: 60, 80, 90, 90."
fn increase_and_limit(checks: &mut Checks) {
    for (train, s) in [(2, 9000), (6, 10_000)] {
        let mut session = open(CARD_A, train);
        checks.equal("stop", step(&mut session, 0, 8, 0).s, 4000);
        checks.equal("increase", step(&mut session, 0, 0, 256).s, s);
    }
    let mut session = open(CARD_A, 2);
    step(&mut session, 0, 3, 0);
    step(&mut session, 0, 10, 0);
    step(&mut session, 0, 0, 64);
    checks.equal("before its final no step", step(&mut session, 0, 0, 256).s, 9000);
    checks.equal("limit at its final", run(&mut session, 530, 0).s, 6000);
    for (press, s) in [(256, 8000), (256, 9000), (256, 9000), (512, 8000), (512, 6000), (512, 6000)] {
        checks.equal("limit steps", step(&mut session, 0, 0, press).s, s);
    }
    checks.equal("removal", step(&mut session, 166, 0, 64).limit, false);
    // "Button 6 removes it when speed is below": 60.00 km/h is m 16,666.7.
    let mut session = Session::open(1, Settings { tick: 10, ..settings(CARD_A) }, 2).unwrap();
    step(&mut session, 1667, 10, 0);
    let lamps = step(&mut session, 1667, 0, 64).lamps;
    checks.equal("16,670 is not below", (lamps, step(&mut session, 1667, 0, 64).limit), (0, true));
    checks.equal("16,660 is below", step(&mut session, 1666, 0, 64).limit, false);
}

/// "Card A under highest 1 passes, version 2 refuses 3." "Length 38 refuses 4." The cards read as their rows say.
fn card_lines(checks: &mut Checks) {
    let a = unhex(CARD_A);
    checks.equal("card A under 1", card::read(1, &a), Ok(settings(CARD_A)));
    checks.equal("version 2 under 1", card::read(1, &unhex(CARD_R)), Err(refused(3)));
    let mut short = a.clone();
    short[1] = 38;
    checks.equal("length 38", card::read(1, &short), Err(refused(4)));
    checks.equal("cut record", card::read(1, &a[..38]), Err(refused(1)));
    checks.equal("under 3", card::read(1, &a[..2]), Err(refused(1)));
    checks.equal("highest 0", card::read(0, &[]), Err(refused(6)));
    checks.equal("highest 3", card::read(3, &a), Ok(settings(CARD_A)));
    checks.equal("highest 4", card::read(4, &a), Err(refused(6)));
    checks.equal("version 0", card::read(2, &[0, 39, 0]), Err(refused(2)));
    let mut behind = a.clone();
    behind.extend([255; 9]);
    checks.equal("X not read from behind", card::read(2, &behind).map(|s| (s.functions, s.x, s.y)), Ok((0, 0, 0)));
    let finals = |card: &str| settings(card).rows.map(|row| row.r#final);
    checks.equal("finals of card A", finals(CARD_A), [120, 80, 100, 80, 40, 30, 60, 100]);
    checks.equal("finals of card R", finals(CARD_R), [160, 80, 80, 80, 15, 30, 60, 140]);
    checks.equal("finals of card RL", finals(CARD_RL), [160, 60, 60, 60, 15, 30, 60, 140]);
    checks.equal("finals of card P", finals(CARD_P), [160, 80, 80, 80, 30, 30, 60, 140]);
    let r2 = settings(CARD_R2);
    checks.equal("card R2", (r2.vmax, r2.tick, r2.bts, r2.functions, r2.x, r2.y), (200, 100, 100, 15, 200, 500));
    checks.equal("row 0 of card R2", r2.rows[0], Row { initial: 200, r#final: 160, delay: 75, drop: 22 });
    let r = settings(CARD_R);
    for (age, wanted) in [(75, 16000), (76, 15978), (200, 13250), (300, 11050), (438, 8014), (439, 8000)] {
        checks.equal("curve of card R, row 1", r.rows[1].at(age), wanted);
    }
    for (row, age, wanted) in [(4, 20, 5000), (4, 21, 4980), (4, 195, 1500), (5, 666, 3000), (6, 530, 6000)] {
        checks.equal("curve of card R", r.rows[row].at(age), wanted);
    }
    checks.equal("row 4 before its final", r.rows[4].at(194) > 1500, true);
    checks.equal("rows 5, 6 before their finals", (r.rows[5].at(665) > 3000, r.rows[6].at(529) > 6000), (true, true));
    let mut off = unhex(CARD_R);
    off[39] = 0x0b;
    checks.equal("reminder off", card::read(2, &off).map(|s| (s.functions, s.x, s.y)), Ok((11, 0, 0)));
    for (place, value, wanted) in [(3, 79, 3), (4, 4, 4), (6, 0, 6), (7, 0, 7), (8, 161, 8), (8, 0, 8), (10, 0, 10),
        (36, 141, 36), (38, 0, 38), (39, 16, 39), (40, 255, 40), (42, 255, 42)] {
        let mut bad = unhex(CARD_R);
        bad[place] = value;
        checks.equal("place", card::read(2, &bad), Err(refused_at(5, wanted)));
    }
}

/// "writing 2, 5, 13", and the buffer afterwards.
fn writer(checks: &mut Checks) {
    let r = settings(CARD_R);
    let mut buffer = [0xee; 50];
    checks.equal("card R written", card::write(2, &r, &mut buffer), Ok(()));
    checks.equal("card R's bytes", buffer.to_vec(), [unhex(CARD_R), vec![0xee; 6]].concat());
    checks.equal("13", card::write(2, &r, &mut [0xee; 43]), Err(refused(13)));
    checks.equal("2", card::write(4, &r, &mut buffer), Err(refused(2)));
    checks.equal("5 at 39", card::write(1, &r, &mut buffer), Err(refused_at(5, 39)));
    checks.equal("5 at 40", card::write(2, &Settings { functions: 11, ..r }, &mut buffer), Err(refused_at(5, 40)));
    let no_x = Settings { functions: 0, x: 0, ..r };
    checks.equal("5 at 42", card::write(1, &no_x, &mut buffer), Err(refused_at(5, 42)));
    let mut buffer = [0xee; 40];
    checks.equal("card P written", card::write(1, &settings(CARD_P), &mut buffer), Ok(()));
    checks.equal("card P's bytes", buffer.to_vec(), [unhex(CARD_P), vec![0xee]].concat());
}

/// Readings that no lesson shows.
fn readings(checks: &mut Checks) {
    // R 9: start left to age 0 by leaving BTS.
    let mut session = open(CARD_A, 6);
    session.sample(Sample { mode: 2, ..Sample::default() }).unwrap();
    session.sample(Sample { mode: 1, ..Sample::default() }).unwrap();
    checks.equal("R 9", (session.main, session.main_age), (Main::Row(7), 0));
    // R 17: a reading over a window at age 29 is missed in the next sample.
    let mut session = open(CARD_A, 6);
    step(&mut session, 0, 1, 0);
    run(&mut session, 28, 0);
    checks.equal("R 17 displaced", (step(&mut session, 0, 6, 0).cause, session.main), (0, Main::Row(3)));
    checks.equal("R 17 missed", step(&mut session, 0, 0, 4).cause, 1);
    // R 20: 7, 1, 7 within 80 m is no stop zone.
    let mut session = open(CARD_R, 6);
    for code in [7, 1, 7] {
        step(&mut session, 0, code, 0);
    }
    checks.equal("R 20", session.main, Main::Row(4));
    // R 18: over the zone's window, lit and pressed at once, missed at zone age 40.
    let mut session = open(CARD_R, 6);
    for code in [7, 0, 7, 0, 0, 5] {
        step(&mut session, 0, code, 0);
    }
    checks.equal("R 18 lit", run(&mut session, 36, 0).lamps, 2);
    checks.equal("R 18 missed", step(&mut session, 0, 0, 2).cause, 1);
    // R 43 and the paper's slip: "Clearing a fresh cause with a rearm in its own sample."
    let mut session = open(CARD_A, 6);
    checks.equal("fresh cause", step(&mut session, 0, 8, 1024).cause, 4);
    checks.equal("another cause keeps it", (step(&mut session, 0, 0, 0).cause, step(&mut session, 0, 8, 1024).cause), (4, 4));
    checks.equal("rearm", step(&mut session, 0, 8, 1024).cause, 0);
}

pub const SHEET: &str = "00930142580000425c000042600000426d00004270000042730a3d427ce14842800a3d4281a3d74286e97942889eb8
428a53f8428ff3b64291c6254293818942999893429b8a3d429d7be742a3e2d142a5f5c342a808b442aef0a442b1147b42b4fdf442bcb12742bf0000
42c3385242cc795842ce039642d290e542ecc83142efad9142f4f95842fd000042fe000042ff0000";

/// The accepted sheet with a stand-in for beacon 11, the true sheet refused 12 at 135, and the classifier's vectors.
fn tones(checks: &mut Checks) {
    let good = unhex(SHEET);
    checks.equal("sheet's length", good.len(), 147);
    checks.equal("good sheet", sheet(&good).map(|rows| rows.len()), Ok(12));
    let mut real = good.clone();
    real[135..147].copy_from_slice(&unhex("42ff65604301428f43041db2"));
    checks.equal("true sheet", sheet(&real).map(|_| 0), Err(refused_at(12, 135)));
    real[135..147].copy_from_slice(&unhex("42ff65604300000043000000"));
    checks.equal("clipped sheet", sheet(&real).map(|rows| rows.len()), Ok(12));
    for (place, value, wanted) in [(0, 1, 0), (1, 146, 0), (2, 2, 2), (3, 0xc2, 3), (15, 0x7f, 15), (12, 0x70, 15)] {
        let mut bad = good.clone();
        bad[place] = value;
        checks.equal("bad sheet", sheet(&bad).map(|_| 0), Err(refused_at(12, wanted)));
    }
    checks.equal("cut sheet", sheet(&good[..146]).map(|_| 0), Err(refused_at(12, 0)));
    let vectors = [(0x425c0000, 0, 0x00000000), (0x42580000, 0, 0xbf800000), (0x4257ffff, 12, 0),
        (0x426d0000, 1, 0xbf400000), (0x42700000, 1, 0), (0x42730a3d, 1, 0x3f428f40), (0x42730a3e, 12, 0),
        (0x427ce148, 2, 0xbf4ccc80), (0x427fffff, 2, 0xbca3d800), (0x42800000, 2, 0xbca3d000),
        (0x42880000, 3, 0xbe9eb800), (0x429a0000, 5, 0xbf451e80), (0x42b10000, 7, 0xbd23d800),
        (0x42b4fdf4, 7, 0x3ffa5e40), (0x42bf0000, 8, 0), (0x42c80000, 12, 0), (0x42fe8000, 11, 0x3e800000),
        (0x4301428f, 12, 0), (0x7fc00000, 12, 0), (0xffc00000, 12, 0), (0x7f800000, 12, 0), (0xff800000, 12, 0)];
    for (tone, row, offset) in vectors {
        let got = match classify(&good, f32::from_bits(tone)) {
            Ok(Tone::Permanent(offset)) => (0, offset.to_bits()),
            Ok(Tone::Beacon(number, offset)) => (number as u32, offset.to_bits()),
            Ok(Tone::Nothing) => (12, 0),
            Err(_) => (13, 0),
        };
        checks.equal(&format!("tone {tone:08x}"), got, (row, offset));
    }
}
