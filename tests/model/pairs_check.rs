//! Checks of limit beacons in pairs: document 02 g), as its readings g1 to g28 have it, with every example there; the laws on rides
//! by seed are in pairs_laws.rs. Train type 6 and tick 100.

use crate::card::{self, refused, refused_at, Settings};
use crate::cards::{unhex, CARD_A, CARD_C, CARD_R};
use crate::check::Checks;
use crate::desk::Session;
use crate::notation::{run, samples};
use crate::ride::recorded;
use crate::why;

pub fn all(checks: &mut Checks) {
    reader(checks);
    writer(checks);
    opening(checks);
    making(checks);
    equal_codes(checks);
    what_parts(checks);
    windows(checks);
    the_first_ones_limit(checks);
    paired_limits(checks);
    removal(checks);
    reasons(checks);
    in_words(checks);
    steps(checks);
    in_bts(checks);
}

/// Card C with these bytes.
fn card_c(changes: &[(usize, u8)]) -> Vec<u8> {
    let mut card = unhex(CARD_C);
    for (place, value) in changes {
        card[*place] = *value;
    }
    card
}

/// "CF: C with row 6 `3C3C0001`."
pub const CF: [(usize, u8); 3] = [(31, 60), (33, 0), (34, 1)];

/// Row 6 at 50 from the first.
const FIFTY: [(usize, u8); 2] = [(31, 50), (32, 50)];

/// No function on, X and Y 0.
const NO_FUNCTIONS: [(usize, u8); 1] = [(39, 0)];

fn opened(card: &[u8]) -> Session {
    let (version, settings) = card::version_and_settings(card).unwrap();
    Session::open(version, settings, 6).unwrap()
}

/// The same card without its pairs, version 2.
fn as_version_2(mut card: Vec<u8>) -> Vec<u8> {
    card.truncate(44);
    card[1..3].copy_from_slice(&[44, 2]);
    card
}

/// Behind a ride: S, lamps, cause, icon, limit of the answer; then the single limit's final value, or a dash, and the speeds of
/// the paired limits that stand.
fn behind(session: &mut Session, ride: &str) -> String {
    let answer = run(session, ride).pop().unwrap().unwrap();
    let single = session.limit.map_or("-".to_string(), |limit| session.limit_final(limit).to_string());
    let paired: Vec<String> = session.paired_standing().iter().map(|(_, value, _)| (value / 100).to_string()).collect();
    let five = format!("{} {} {} {} {}", answer.s, answer.lamps, answer.cause, answer.icon, answer.limit as u8);
    format!("{five}, {single}, {}", if paired.is_empty() { "-".to_string() } else { paired.join(" ") })
}

fn rides(checks: &mut Checks, changes: &[(usize, u8)], table: &[(&str, &str)]) {
    for (ride, wanted) in table {
        checks.equal(&format!("{changes:?} {ride}"), behind(&mut opened(&card_c(changes)), ride), wanted.to_string());
    }
}

/// "Bytes 44..47 may be equal. Places 44, 45, 46, 47, 48 follow 42." (g1) "Reader: highest 1..3, else 6; version 3 under highest 1 or
/// 2, and 4 under 3, is 3." (g2)
fn reader(checks: &mut Checks) {
    let five = |s: Settings| (s.pairs, s.distance);
    checks.equal("card C", card::read(3, &card_c(&[])).map(five), Ok(([30, 40, 50, 70], 10)));
    for highest in 0..=5 {
        let wanted = |version: u8| match (highest, version) {
            (0, _) | (4, _) | (5, _) => Err(refused(6)),
            (_, 0) => Err(refused(2)),
            _ if version > highest => Err(refused(3)),
            _ => Ok(()),
        };
        for (version, card) in [(0, card_c(&[(2, 0)])), (1, unhex(CARD_A)), (2, unhex(CARD_R)), (3, card_c(&[])), (4, card_c(&[(2, 4)]))] {
            let name = format!("version {version} under {highest}");
            checks.equal(&name, card::read(highest, &card).map(|_| ()), wanted(version));
        }
    }
    for place in 44..48 {
        for value in 0..=255 {
            let wanted = if [30, 40, 50, 70].contains(&value) { Ok(()) } else { Err(refused_at(5, place)) };
            let name = format!("{place} is {value}");
            checks.equal(&name, card::read(3, &card_c(&[(place, value)])).map(|_| ()), wanted);
            checks.equal(&name, card::read(3, &card_c(&[(place, value), (48, 0)])).is_ok(), false);
        }
    }
    for value in 0..=255 {
        let wanted = if value >= 1 && value <= 50 { Ok(()) } else { Err(refused_at(5, 48)) };
        checks.equal(&format!("48 is {value}"), card::read(3, &card_c(&[(48, value)])).map(|_| ()), wanted);
    }
    for (changes, place) in [
        (&[(42, 255), (44, 0)][..], 42), (&[(40, 255), (48, 0)], 40), (&[(39, 16), (44, 0)], 39), (&[(44, 0), (45, 0)], 44),
        (&[(45, 0), (48, 0)], 45), (&[(46, 0), (47, 0)], 46), (&[(47, 0), (48, 0)], 47), (&[(39, 0), (40, 255), (48, 51)], 48),
    ] {
        checks.equal("the first place", card::read(3, &card_c(changes)).map(|_| ()), Err(refused_at(5, place)));
    }
    // "40–43 stay silent with bit 2 off; 44–48 always speak." (g1)
    let silent = card::read(3, &card_c(&[(39, 11), (40, 255), (42, 255)]));
    checks.equal("silent bytes", silent.map(|s| (s.x, s.y, five(s))), Ok((0, 0, ([30, 40, 50, 70], 10))));
    for (length, wanted) in [(44, Err(refused(4))), (48, Err(refused(4))), (49, Ok(())), (50, Err(refused(4)))] {
        checks.equal("length", card::read(3, &card_c(&[(1, length)])).map(|_| ()), wanted);
    }
    checks.equal("record", card::read(3, &card_c(&[])[..48]).map(|_| ()), Err(refused(1)));
    // "Nothing behind a version 1 or 2 record is looked at." (g3)
    for card in [unhex(CARD_A), unhex(CARD_R)] {
        let mut area = card.clone();
        area.extend([30; 12]);
        checks.equal("nothing behind it", (card::read(3, &area).map(five), card::read(3, &area)), (Ok(([0; 4], 0)), card::read(2, &card)));
    }
}

/// "Settings beside them with 44..48 not 0: 5 at the first; zeros beside version 3: 5 at 44." (g3) "13 is the writer's alone." (g4)
fn writer(checks: &mut Checks) {
    let c = card::read(3, &card_c(&[])).unwrap();
    let none = Settings { pairs: [0; 4], distance: 0, ..c };
    let plain = Settings { functions: 0, x: 0, y: 0, ..none };
    let mut buffer = [0xee; 52];
    checks.equal("card C written", card::write(3, &c, &mut buffer), Ok(()));
    checks.equal("card C's bytes", buffer.to_vec(), [card_c(&[]), vec![0xee; 3]].concat());
    let mut buffer = [0xee; 48];
    for (name, version, settings, wanted) in [
        ("13", 3, c, Err(refused(13))), ("version 0", 0, c, Err(refused(2))), ("version 4", 4, c, Err(refused(2))),
        ("zeros beside 3", 3, none, Err(refused_at(5, 44))), ("C beside 2", 2, c, Err(refused_at(5, 44))),
        ("C beside 1", 1, c, Err(refused_at(5, 39))), ("pairs beside 1", 1, Settings { pairs: c.pairs, ..plain }, Err(refused_at(5, 44))),
        ("47 beside 2", 2, Settings { pairs: [0, 0, 0, 1], distance: 1, ..none }, Err(refused_at(5, 47))),
        ("48 beside 2", 2, Settings { distance: 10, ..none }, Err(refused_at(5, 48))),
        ("48 beside 1", 1, Settings { distance: 10, ..plain }, Err(refused_at(5, 48))),
        ("48 is 0", 3, Settings { distance: 0, ..c }, Err(refused_at(5, 48))),
        ("42 before 44", 3, Settings { y: 0, ..none }, Err(refused_at(5, 42))), ("2", 2, none, Ok(())), ("1", 1, plain, Ok(())),
    ] {
        let before = buffer;
        checks.equal(name, card::write(version, &settings, &mut buffer), wanted);
        checks.equal(name, wanted.is_ok() || before == buffer, true);
    }
}

/// "Opening(version, settings, type): 2, 5, 7. Version 1 with functions not 0 is now 5 at 39." (g4)
fn opening(checks: &mut Checks) {
    let c = card::read(3, &card_c(&[])).unwrap();
    let none = Settings { pairs: [0; 4], distance: 0, ..c };
    for (name, version, settings, train, wanted) in [
        ("2", 0, Settings { vmax: 0, ..c }, 9, Err(refused(2))), ("2", 4, c, 9, Err(refused(2))),
        ("5", 3, none, 9, Err(refused_at(5, 44))), ("5", 2, c, 9, Err(refused_at(5, 44))), ("5", 1, none, 6, Err(refused_at(5, 39))),
        ("7", 3, c, 7, Err(refused(7))), ("7", 2, none, 0, Err(refused(7))), ("3", 3, c, 6, Ok(3)), ("2", 2, none, 6, Ok(2)),
        ("1", 1, Settings { functions: 0, x: 0, y: 0, ..none }, 6, Ok(1)),
    ] {
        checks.equal(&format!("opening {name}"), Session::open(version, settings, train).map(|session| session.version), wanted);
    }
}

/// g8, g9, g13 and the first of the lines.
fn making(checks: &mut Checks) {
    rides(checks, &[], &[
        ("100/10, 19×100, 100/11, 4×100, 100/10", "5000 64 0 0 1, 6000, 50"),
        ("100/10, 9×100, 100/10", "3000 64 5 0 1, -, 30"), ("100/10, 9×100, 101/10", "10000 64 0 0 1, 6000, -"),
        ("100/10, 9×100, 99/10", "3000 64 5 0 1, -, 30"), ("0/10, 0, 0/10", "3000 64 0 0 1, -, 30"),
        ("0/10, 0/11", "4000 64 0 0 1, -, 40"), ("0/11, 0/10", "5000 64 0 0 1, -, 50"), ("0/11, 0, 0/11", "7000 64 0 0 1, -, 70"),
        ("277/10, 277/11", "4000 64 5 0 1, -, 40"), ("277/10", "10000 64 0 0 1, 6000, -"),
        ("50/10, 50/11, 2×50/0/64", "10000 0 0 0 0, -, -"), ("50/10, 50/11, 50/0/64", "4000 64 0 0 1, -, 40"),
    ]);
    rides(checks, &[(48, 1)], &[("0/10, 100/11", "4000 64 0 0 1, -, 40"), ("0/10, 101/11", "10000 64 0 0 1, 6000, -")]);
    rides(checks, &[(48, 50)], &[("0/10, 50×100, 0/11", "4000 64 2 0 1, -, 40"), ("0/10, 50×100, 1/11", "10000 64 2 0 1, 6000, -")]);
    for (ride, wanted) in [("0/10, 0/11", "10000 64 0 0 1, 6000, -"), ("100/10, 9×100, 100/10", "10000 64 0 0 1, 6000, -")] {
        for card in [as_version_2(card_c(&[])), unhex(CARD_A)] {
            checks.equal(ride, behind(&mut opened(&card), ride), wanted.to_string());
        }
    }
}

/// "Equal codes need another code (0, 12, a beacon) between. 10, 0, 10, 11, 0, 11 is pairs 30 and 70; 11, 10, 11 is a 50 and a new
/// first." (g10) "a beacon belongs to one pair only" (02 g).
fn equal_codes(checks: &mut Checks) {
    rides(checks, &[], &[
        ("0/10, 0/10", "10000 64 0 0 1, 6000, -"), ("0/10, 0/10, 0/10, 0, 0/10", "3000 64 0 0 1, -, 30"),
        ("0/10, 0/12, 0/10", "3000 1088 6 0 1, -, 30"), ("0/10, 0/7, 0/10", "3000 80 0 0 1, -, 30"),
        ("0/10, 0, 0/10, 0/11, 0, 0/11", "3000 64 0 0 1, -, 30 70"), ("0/10, 0, 0/10, 0/11", "3000 64 0 0 1, 6000, 30"),
        ("0/11, 0/10, 0/11", "5000 64 0 0 1, 6000, 50"), ("0/11, 0/10, 0/11, 0/10", "5000 64 0 0 1, -, 50"),
        ("50/10, 50, 50/10, 50/11, 50, 50/11, 50/0/64", "3000 64 0 0 1, -, 30 70"),
        ("50/10, 50, 50/10, 50/11, 50, 50/11, 2×50/0/64", "7000 64 0 0 1, -, 70"),
        ("50/10, 50, 50/10, 50/11, 50, 50/11, 3×50/0/64", "10000 0 0 0 0, -, -"),
    ]);
}

/// "Only distance and a mode change, either way, part them; no other beacon, time, miss, brake or removal does." (g11)
fn what_parts(checks: &mut Checks) {
    rides(checks, &[], &[
        ("0/10, 0/3, 0, 0/11", "4000 96 0 0 1, -, 40"), ("0/10, 0/0/64, 500×0, 0/11", "4000 64 0 0 1, -, 40"),
        ("0/10, 40×0, 0/11", "4000 1088 2 0 1, -, 40"), ("0/10, 0/8, 0/11", "4000 1344 4 0 1, -, 40"),
        ("0/10, 0/8, 0/0/1088, 0/11", "4000 320 0 0 1, -, 40"), ("0/10, 2×0/0/64, 0/11", "4000 64 0 0 1, -, 40"),
        ("0/10, 0/0/0/2, 0/11/0/2", "8000 64 0 0 1, 6000, -"), ("0/10/0/2, 0, 0/11", "10000 64 0 0 1, 6000, -"),
        ("0/10, 0/0/0/2, 0, 0/11", "10000 64 0 0 1, 6000, -"), ("0/10, 0/11/0/2", "8000 64 0 0 1, 6000, -"),
        ("0/10/0/2, 0/11", "10000 64 0 0 1, 6000, -"), ("0/10/0/2, 0/11/0/2", "4000 64 0 0 1, -, 40"),
    ]);
}

/// "The second waits for 6 too: in an open side window's place, to that one's miss (a displaced 9 counts), else in a fresh window"
/// (g14).
fn windows(checks: &mut Checks) {
    rides(checks, &[], &[
        ("120/10, 120/0/64, 2×120, 120/11, 30×120", "4000 0 2 0 1, -, 40"),
        ("120/10, 120/0/64, 2×120, 120/11, 29×120", "4000 64 0 0 1, -, 40"),
        ("120/10, 2×120, 120/11, 26×120", "4000 64 0 0 1, -, 40"), ("120/10, 2×120, 120/11, 27×120", "4000 0 2 0 1, -, 40"),
        ("120/10, 2×120, 120/11, 120/0/64, 40×120", "4000 0 0 0 1, -, 40"),
        // The 9 is displaced by the second at its age 1 and counts; the window that it had is missed 29 samples later.
        ("120/10, 120/0/64, 120/9, 120/11", "4000 64 0 2 1, -, 40"),
        ("120/10, 120/0/64, 120/9, 120/11, 28×120", "4000 64 0 2 1, -, 40"),
        ("120/10, 120/0/64, 120/9, 120/11, 29×120", "4000 0 2 2 1, -, 40"),
    ]);
}

/// g15 to g19. Row 6 is at its final 60 from the first.
fn the_first_ones_limit(checks: &mut Checks) {
    rides(checks, &CF, &[
        ("50/10", "6000 64 0 0 1, 6000, -"), ("50/10, 50/11", "4000 64 0 0 1, -, 40"),
        ("50/11, 50/10, 50/0/64, 50/10, 50/11", "4000 64 0 0 1, -, 40 50"),
        ("50/10, 50/9, 50/0/64, 50/11", "4000 64 0 0 1, 6000, 40"), ("50/10, 50/1, 50/0/64, 50/11", "4000 64 0 0 1, 6000, 40"),
        ("50/10, 50/9, 50/0/32, 50/11", "4000 64 0 2 1, -, 40"), ("50/10, 50/0/64, 50/0/64, 50/11", "4000 64 0 0 1, -, 40"),
        ("50/10, 2×50/0/64, 50/9, 50/0/64, 50/11", "4000 64 0 0 1, 6000, 40"),
        ("50/9, 50/0/64, 50/0/256", "8000 64 0 0 1, 8000, -"), ("50/9, 50/0/64, 50/0/256, 50/10", "6000 64 0 0 1, 6000, -"),
        ("50/9, 50/0/64, 50/0/256, 50/10, 50/11", "4000 64 0 0 1, 6000, 40"),
        ("50/9, 50/0/64, 50/0/256, 50/10, 50/11, 2×50/0/64", "6000 64 0 0 1, 6000, -"),
        ("50/9, 50/0/64, 50/0/256, 50/10, 50/11, 2×50/0/64, 50/0/256", "6000 64 0 0 1, 6000, -"),
        ("50/9, 50/0/64, 50/10, 50/11, 2×50/0/64, 50/9, 50/0/64, 50/0/256", "8000 64 0 0 1, 8000, -"),
        ("100/10, 11×100, 100/11, 100/10", "5000 64 0 0 1, 6000, 50"), ("100/10, 11×100, 100/11", "6000 64 0 0 1, 6000, -"),
        // Nothing stood before the second first, whose predecessor was taken off.
        ("100/10, 2×100/0/64, 9×100, 100/11, 100/10", "5000 64 0 0 1, -, 50"),
    ]);
}

/// g20 to g22. All five together: the single by a 9, then a pair of each kind.
fn paired_limits(checks: &mut Checks) {
    let five = "0/9, 0/0/64, 0/10, 0, 0/10, 0, 0/10, 0/11, 0, 0/11, 0/10, 0/11, 0, 0/11";
    rides(checks, &CF, &[(five, "3000 64 0 0 1, 6000, 30 40 50 70")]);
    let after = |more: &str| format!("{five}, {more}");
    let presses = [("2×0/0/64", "40 50 70", 6000), ("3×0/0/64", "50 70", 6000), ("4×0/0/64", "70", 6000)];
    for (more, paired, single) in presses {
        let s = 100 * paired[..2].parse::<i64>().unwrap();
        let wanted = format!("{} 64 0 0 1, {single}, {paired}", s.min(single));
        checks.equal(more, behind(&mut opened(&card_c(&CF)), &after(more)), wanted);
    }
    rides(checks, &CF, &[(&after("5×0/0/64"), "7000 64 0 0 1, -, 70"), (&after("6×0/0/64"), "10000 0 0 0 0, -, -")]);
    // "with 44 = 45 both kinds set the same one" (g21)
    rides(checks, &[(45, 30)], &[("0/10, 0, 0/10, 0, 0/10, 0/11", "3000 64 0 0 1, -, 30")]);
    // No curve and no steps (g20): at any age 4000, whatever is pressed.
    rides(checks, &[], &[("0/10, 0/11, 0/0/64, 0/0/256, 900×0", "4000 64 0 0 1, -, 40")]);
    // "A paired one may go when 9m < 25 × its value" (g22): 83 pulses are 29.88 km/h, 84 are 30.24, 111 are 39.96, 112 are 40.32.
    rides(checks, &[], &[
        ("0/10, 0, 0/10, 0/0/64, 83", "3000 64 0 0 1, -, 30"), ("0/10, 0, 0/10, 0/0/64, 84", "3000 0 0 0 1, -, 30"),
        ("0/10, 0/11, 0/0/64, 111", "4000 64 0 0 1, -, 40"), ("0/10, 0/11, 0/0/64, 112", "4000 0 0 0 1, -, 40"),
        ("0/11, 0/10, 0/0/64, 138", "5000 64 0 0 1, -, 50"), ("0/11, 0/10, 0/0/64, 139", "5000 0 0 0 1, -, 50"),
        ("0/11, 0, 0/11, 0/0/64, 194", "7000 64 0 0 1, -, 70"), ("0/11, 0, 0/11, 0/0/64, 195", "7000 0 0 0 1, -, 70"),
        ("0/10, 0, 0/10, 0/0/64, 84/0/64", "3000 0 0 0 1, -, 30"),
    ]);
}

/// g23 and g24.
fn removal(checks: &mut Checks) {
    // "C, single (final 60, now 160) and paired 70 at 50 pulses: the single."
    let both = "50/9, 50/0/64, 50/11, 50, 50/11, 50/0/64";
    rides(checks, &[], &[
        (both, "7000 64 0 0 1, 6000, 70"), (&format!("{both}, 50/0/64"), "7000 64 0 0 1, -, 70"),
        (&format!("{both}, 2×50/0/64"), "10000 0 0 0 0, -, -"), (&format!("{both}, 167/0/64"), "10000 0 0 0 1, 6000, -"),
        ("84/10, 84, 84/10, 84/11, 84, 84/11, 84/0/64, 84/0/64", "3000 0 0 0 1, -, 30"),
        ("84/10, 84, 84/10, 84/11, 84, 84/11, 84/0/64, 83/0/64", "7000 64 0 0 1, -, 70"),
    ]);
    // Of equal values the paired one.
    rides(checks, &FIFTY, &[
        ("50/9, 50/0/64, 50/11, 50/10, 50/0/64", "5000 64 0 0 1, 5000, 50"),
        ("50/9, 50/0/64, 50/11, 50/10, 2×50/0/64", "5000 64 0 0 1, 5000, -"),
    ]);
    // The single's with steps: 60 with one is 80, above the 70.
    rides(checks, &CF, &[
        ("50/11, 50/9, 50/0/64, 50/11, 50/0/64, 50/0/256", "7000 64 0 0 1, 8000, 70"),
        ("50/11, 50/9, 50/0/64, 50/11, 50/0/64, 50/0/256, 50/0/64", "8000 64 0 0 1, 8000, -"),
        ("50/11, 50/9, 50/0/64, 50/11, 50/0/64, 50/0/64", "7000 64 0 0 1, -, 70"),
    ]);
}

/// "f: reason 7, the single's age if it equals S, else the paired one's." (g25)
fn reasons(checks: &mut Checks) {
    let table = [
        (&FIFTY[..], "50/9, 50/0/64, 50/11, 50/10", "7 5000 3 limit"), (&FIFTY, "50/9, 50/0/64, 50/11, 50/10, 50", "7 5000 4 limit"),
        (&FIFTY, "50/9, 50/0/64, 50/11, 50/10, 2×50/0/64", "7 5000 5 limit"),
        (&FIFTY, "50/9, 50/0/64, 50/10, 50/11", "7 4000 0 paired limit"), (&[], "50/11, 50/10", "7 5000 0 paired limit"),
        (&[], "50/11, 50/10, 7×50", "7 5000 7 paired limit"), (&[], "50/11, 50/10, 7×50, 50/11, 50/10", "7 5000 0 paired limit"),
        (&[], "50/11, 50/10, 7×50, 50/11", "7 5000 8 paired limit"), (&[(35, 30), (36, 30)], "50/11, 50/10", "4 3000 2 start"),
        (&[(35, 50), (36, 50)], "50/11, 50/10", "4 5000 2 start"), (&CF, "50/10", "7 6000 0 limit"),
    ];
    for (changes, ride, wanted) in table {
        let mut session = opened(&card_c(changes));
        run(&mut session, ride).pop().unwrap().unwrap();
        let why = session.why();
        checks.equal(ride, format!("{} {} {} {}", why.reason, why.value, why.age, session.reason_name()), wanted.to_string());
    }
}

/// The lines in words: from the single to a paired limit and back is another name; from a paired one to another is none.
fn in_words(checks: &mut Checks) {
    for (changes, ride, wanted) in [
        (&[][..], "50, 50/10, 50/11, 50", "1  100 km/h  start, 0.1 s old\n3  40 km/h  paired limit, 0.0 s old\n"),
        (&CF, "50/10, 50/11, 2×50/0/64", "1  60 km/h  limit, 0.0 s old\n2  40 km/h  paired limit, 0.0 s old\n4  100 km/h  start, 0.4 s old\n"),
        // 40, then 30, then 40 again under one name; the 60 that a 9 set behind them.
        (&CF, "50/9, 50/0/64, 50/10, 50/11, 50/10, 50, 50/10, 3×50/0/64", "1  100 km/h  start, 0.1 s old\n\
            2  60 km/h  limit, 0.1 s old\n4  40 km/h  paired limit, 0.0 s old\n10  60 km/h  limit, 0.9 s old\n"),
    ] {
        let mut out = Vec::new();
        why::print_words(&card_c(changes), &recorded(6, &samples(ride)), &mut out).unwrap();
        checks.equal(ride, String::from_utf8(out).unwrap(), wanted.to_string());
    }
}

/// "Increase steps the limit if the version is not 3 or an answered 1 or 9 last set it." (g26) "Hide is unchanged. After removal the
/// next setter decides afresh." (g27)
fn steps(checks: &mut Checks) {
    let table = [
        ("50/10, 50/0/64, 50/0/256", 6000, 8000), ("50/9, 50/0/64, 50/0/256", 8000, 8000), ("50/1, 50/0/64, 50/0/256", 8000, 8000),
        ("50/9, 50/0/64, 50/10, 50/0/64, 50/0/256", 6000, 8000), ("50/9, 50/0/64, 50/0/256, 50/11", 6000, 6000),
        ("50/10, 50/0/64, 50/9, 50/0/64, 50/0/256", 8000, 8000), ("50/9, 50/0/64, 50/0/256, 50/0/512", 6000, 6000),
        ("50/9, 2×50/0/64, 50/10, 50/0/64, 50/0/256", 6000, 8000), ("50/10, 2×50/0/64, 50/9, 50/0/64, 50/0/256", 8000, 8000),
        ("50/9, 50/0/32, 50/10, 50/0/64, 50/0/256", 6000, 8000), ("50/10, 50/0/64, 50/1, 50/0/64, 50/0/256", 8000, 8000),
        ("50/10, 50/9, 50/0/64, 50/11, 2×50/0/64, 50/0/256", 8000, 10_000),
    ];
    for (ride, s, s_on_2) in table {
        let got = |card: Vec<u8>| run(&mut opened(&card), ride).pop().unwrap().unwrap().s;
        checks.equal(ride, (got(card_c(&CF)), got(as_version_2(card_c(&CF)))), (s, s_on_2));
    }
}

/// "In BTS with function 3 beacons read there pair; without it none is read, none is a first. Until j a mode change drops paired
/// limits too." (g28)
fn in_bts(checks: &mut Checks) {
    rides(checks, &[], &[
        ("0/0/0/2, 0/10/0/2, 0/11/0/2", "4000 64 0 0 1, -, 40"), ("0/0/0/2, 0/10/0/2, 0/11/0/2, 0", "10000 0 0 0 0, -, -"),
        ("0/10, 0/11, 0/0/0/2", "8000 0 0 0 0, -, -"), ("0/10, 0/11, 0/0/0/2, 0", "10000 0 0 0 0, -, -"),
        ("0/11, 0, 0/11, 0/0/0/2, 0/10/0/2", "8000 64 0 0 1, 6000, -"),
    ]);
    rides(checks, &NO_FUNCTIONS, &[
        ("0/0/0/2, 0/10/0/2, 0/11/0/2", "8000 0 0 0 0, -, -"), ("0/10/0/2, 0/0/0/2, 0/11", "10000 64 0 0 1, 6000, -"),
        ("0/10, 0/11", "4000 64 0 0 1, -, 40"),
    ]);
}
