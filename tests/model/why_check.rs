//! Checks of the reason and of the brake's age: document 02 f), as its readings f1 to f8 have it; those of what is printed are in
//! why_printed_check.rs. Train type 6 and tick 100 where nothing else is said. Card K's rows fall from age 0 on, so that S tells
//! an age.

use crate::card::{self, Row, Settings};
use crate::cards::{unhex, CARD_A, CARD_K, CARD_R};
use crate::check::Checks;
use crate::desk::{Main, Session, BTS};
use crate::notation::{on, run};
use crate::ride;
use crate::steer::make_ride;

/// Document 02's card C without its pairs: version 2.
const CARD_C: &str = "002C02A0006450 A0784B14 A0504B16 A0644B16 A0504B16 50281414 9B1E1416 A03C4B16 64640001 0F00140032";

pub fn all(checks: &mut Checks) {
    order(checks);
    ties(checks);
    ties_in_bts(checks);
    main(checks);
    alongside(checks);
    crossing(checks);
    protected(checks);
    limit(checks);
    brake(checks);
    brake_top(checks);
    by_seed(checks);
}

/// Reason, S and age behind a ride.
fn why(mut session: Session, ride: &str) -> String {
    run(&mut session, ride).pop().unwrap().unwrap();
    let why = session.why();
    format!("{} {} {}", why.reason, why.value, why.age)
}

fn whys(checks: &mut Checks, card: &str, table: &[(&str, &str)]) {
    for (ride, wanted) in table {
        checks.equal(ride, why(on(card), ride), wanted.to_string());
    }
}

fn settings(card: &str) -> Settings {
    card::read(2, &unhex(card)).unwrap()
}

/// A card with these rows flat: the row's number, its speed.
fn flat(card: &str, rows: &[(usize, u8)]) -> Settings {
    let mut settings = settings(card);
    for (row, speed) in rows {
        settings.rows[*row] = Row { initial: *speed, r#final: *speed, delay: 0, drop: 1 };
    }
    settings
}

fn on_these(settings: Settings, train: u8) -> Session {
    Session::open(2, settings, train).unwrap()
}

/// "3 stands in BTS only, 4 neither there nor under clear. vmax is named only when T = vmax." (f2)
fn order(checks: &mut Checks) {
    let a = settings(CARD_A);
    for (train, ride, wanted) in [
        (6, "0/3", "1 16000 0"), (5, "0/3", "2 14000 0"), (5, "0/3, 40×0", "2 14000 0"), (6, "0/3, 40×0", "1 16000 0"),
        (6, "0", "4 10000 1"), (4, "0", "4 10000 1"), (3, "0", "2 10000 0"), (2, "0", "2 9000 0"),
        (6, "0/0/0/2", "3 8000 0"), (1, "0/0/0/2", "2 8000 0"), (2, "0/0/0/2", "3 8000 0"), (6, "0/0/0/2, 40×0/0/0/2", "3 8000 0"),
    ] {
        checks.equal(&format!("type {train}, {ride}"), why(on_these(a, train), ride), wanted.to_string());
    }
    let slow = Settings { vmax: 80, ..a };
    checks.equal("vmax 80, in BTS", why(on_these(slow, 1), "0/0/0/2"), "1 8000 0".into());
    checks.equal("vmax 80", why(on_these(slow, 1), "0"), "1 8000 0".into());
    checks.equal("vmax 81", why(on_these(Settings { vmax: 81, ..a }, 1), "0"), "2 8000 0".into());
    for bts in [159, 160, 161] {
        let wanted = if bts == 159 { "3 15900 0" } else { "1 16000 0" };
        checks.equal("BTS speed and vmax", why(on_these(Settings { bts, ..a }, 6), "0/0/0/2"), wanted.into());
    }
}

/// "the first in the order ... where several are equal": each where a later one equals S too, and the later one alone.
fn ties(checks: &mut Checks) {
    let start_and_limit = flat(CARD_A, &[(6, 100)]);
    let start_and_crossing = flat(CARD_A, &[(5, 100)]);
    let forty = flat(CARD_A, &[(4, 40), (5, 40), (6, 40)]);
    for (settings, ride, wanted) in [
        (start_and_limit, "50/10", "4 10000 1"), (start_and_limit, "50/10, 50/3", "7 10000 1"),
        (flat(CARD_A, &[(6, 99)]), "50/10", "7 9900 0"), (flat(CARD_A, &[(6, 101)]), "50/10", "4 10000 1"),
        (start_and_crossing, "50/9, 50/0/32", "4 10000 2"), (start_and_crossing, "50/9, 50/0/32, 50/3", "6 10000 2"),
        (flat(CARD_A, &[(5, 99)]), "50/9, 50/0/32", "6 9900 1"),
        (forty, "50/8, 50/7", "4 4000 0"), (forty, "50/8, 50/7, 50/3", "5 4000 1"), (forty, "50/7, 50/3", "1 16000 0"),
        (forty, "50/8, 50/10, 50/3", "5 4000 0"), (forty, "50/8, 50/10, 50/3, 199×50", "5 4000 199"),
        (forty, "50/8, 50/10, 50/3, 200×50", "7 4000 201"), (forty, "50/10, 50/3", "7 4000 1"),
        (forty, "50/8, 50/9, 50/0/32, 50/3", "5 4000 0"), (forty, "50/9, 50/0/32, 50/3", "6 4000 2"),
        (forty, "50/9, 50/0/32, 50/10, 50/3", "6 4000 3"), (forty, "50/10, 50/9, 50/0/32, 50/3", "6 4000 2"),
        (forty, "50/8, 50/10", "4 4000 1"), (flat(CARD_A, &[(6, 39)]), "50/8, 50/10, 50/3", "7 3900 1"),
    ] {
        checks.equal(ride, why(on_these(settings, 6), ride), wanted.to_string());
    }
    for (train, ride, wanted) in [
        // A stop increased to T, one to 100 km/h under it; a protected crossing at T; a limit stepped up to T.
        (1, "0/8, 0/0/256, 0/3", "2 8000 0"), (3, "0/8, 0/0/256, 0/3", "2 10000 0"), (4, "0/8, 0/0/256, 0/3", "5 10000 0"),
        (5, "200/3, 200/4", "2 14000 0"), (6, "200/3, 200/4", "6 15500 0"),
        (1, "0/10, 0/3, 0/0/256", "7 6000 2"), (1, "0/10, 0/3, 0/0/256, 0/0/256", "2 8000 0"),
    ] {
        let session = on_these(flat(CARD_C, &[(6, 40)]), train);
        checks.equal(&format!("type {train}, {ride}"), why(session, ride), wanted.to_string());
    }
}

/// In BTS 3 goes before 6 and 7; 4 and 5 do not stand there.
fn ties_in_bts(checks: &mut Checks) {
    for (bts, wanted_limit, wanted_crossing) in [
        (69, "3 6900 0", "3 6900 0"), (70, "3 7000 0", "3 7000 0"), (71, "7 7000 1", "6 7000 1"),
    ] {
        let session = on_these(Settings { bts, ..flat(CARD_C, &[(5, 70), (6, 70)]) }, 6);
        checks.equal("a limit in BTS", why(session.clone(), "0/10/0/2, 0/0/0/2"), wanted_limit.to_string());
        checks.equal("a crossing in BTS", why(session, "0/9/0/2, 0/0/32/2"), wanted_crossing.to_string());
    }
    whys(checks, CARD_C, &[("0/8, 0/3, 0/0/0/2", "3 8000 0"), ("0/7, 0/0/0/2", "3 8000 0"), ("0/10, 0/0/0/2", "3 8000 0")]);
}

/// "Main's age is its row's: start 1 in the first sample, 0 in the leaving one; a 1 answered, missed or displaced, stop and zone
/// have their reading's." (f3)
fn main(checks: &mut Checks) {
    whys(checks, CARD_A, &[("0", "4 10000 1"), ("0/0/0/2, 0", "4 10000 0"), ("0/0/0/2, 0, 0", "4 10000 1")]);
    whys(checks, CARD_K, &[
        ("50", "4 14990 1"), ("2×50", "4 14980 2"), ("0/0/0/2, 0", "4 15000 0"), ("0/0/0/2, 0, 0", "4 14990 1"),
        ("50/1", "4 14990 1"), ("50/1, 50, 50/0/1", "4 11980 2"), ("50/1, 50, 50/0/2", "4 13980 2"),
        ("50/1, 50, 50/0/4", "4 12980 2"), ("50/1, 28×50, 50/0/1", "4 11710 29"), ("50/1, 29×50", "4 14700 30"),
        ("50/1, 30×50", "4 11700 30"), ("50/1, 31×50", "4 11690 31"), ("50/1, 50, 50/1", "4 11980 2"),
        ("50/1, 50, 50/1, 50/0/1", "4 11990 1"), ("50/1, 50/7", "4 6000 0"), ("50/5", "4 14000 0"), ("50/6", "4 13000 0"),
        ("50/7, 5×50", "4 5950 5"), ("50/7, 50/0/16", "4 5990 1"), ("50/2", "2 16000 0"),
        ("50/8", "4 4000 0"), ("50/8, 3×50", "4 4000 3"), ("50/8, 50, 50/0/256", "4 10000 2"),
        ("50/7, 50, 50/7", "4 1000 0"), ("50/7, 50, 50/7, 2×50", "4 1000 2"), ("50/7, 50, 50/7, 50, 50/7", "4 6000 0"),
    ]);
}

/// "Alongside has its own age, 0 in the sample of the taking over (R27), not the stop's." (f4)
fn alongside(checks: &mut Checks) {
    for card in [CARD_A, CARD_K] {
        whys(checks, card, &[
            ("50/8, 50/3", "5 4000 0"), ("50/8, 50/3, 5×0", "5 4000 5"), ("50/8, 9×50, 50/3", "5 4000 0"),
            ("50/8, 50/3, 50/5, 50", "5 4000 2"), ("50/8, 50/3, 199×50", "5 4000 199"),
            ("50/8, 50/1, 50, 50/0/1", "5 4000 0"), ("50/8, 50/1, 50", "4 4000 2"), ("50/8, 50/1, 29×50", "4 4000 30"),
            ("50/8, 50/1, 30×50", "5 4000 0"), ("50/8, 50/3, 50, 50/8", "4 4000 0"),
        ]);
    }
    whys(checks, CARD_A, &[("50/8, 50/3, 200×50", "1 16000 0")]);
    whys(checks, CARD_K, &[("50/8, 50/3, 200×50", "2 16000 0"), ("50/8, 50, 50/0/256, 50/3, 50", "5 10000 1")]);
}

/// "Crossing: the reading's age, a missed 9 has 30 ... A repeat keeps it, a turn is 0." (f5)
fn crossing(checks: &mut Checks) {
    whys(checks, CARD_K, &[
        ("50/9, 29×50", "4 14700 30"), ("50/9, 30×50", "6 9970 30"), ("50/9, 31×50", "6 9969 31"),
        ("50/9, 4×50, 50/0/32", "6 9995 5"), ("50/1, 4×50, 50/0/32", "6 9995 5"), ("50/9, 50, 50/10", "6 9998 2"),
        ("50/9, 50/0/32, 50/9", "6 9998 2"), ("50/9, 50/0/32, 50/9, 50/0/32", "6 9997 3"),
        ("50/9, 50/0/32, 50/9, 30×50", "6 9968 32"), ("50/9, 50/0/32, 50/1, 50/0/32", "6 9997 3"),
        ("50/3, 50/4", "6 10000 0"), ("50/3, 50/4, 50/0", "6 9999 1"),
    ]);
}

/// "an answered 3 the 3's (R36): C 270, 270/3, 9×270, 270/0/32 is 6 15500 10" (f5).
fn protected(checks: &mut Checks) {
    for card in [CARD_C, CARD_R] {
        whys(checks, card, &[
            ("270, 270/3, 9×270, 270/0/32", "6 15500 10"), ("270, 270/3, 270/0/32", "6 15500 1"),
            ("270, 270/3, 28×270, 270/0/32", "6 15500 29"), ("270, 270/3, 29×270, 270/0/32", "1 16000 0"),
            ("270, 270/3, 9×270", "1 16000 0"), ("270, 270/3, 9×270, 270/0/32, 270/4", "6 15500 11"),
            ("270, 270/4, 270, 270/3", "6 15500 2"), ("270, 270/4, 270, 270/3, 270, 270/0/32", "6 15500 4"),
        ]);
    }
    whys(checks, CARD_K, &[
        ("270/3, 270/4, 270, 270/4", "6 15500 2"), ("270/3, 270/4, 5×270, 112", "6 15500 6"),
        ("270/3, 270/4, 5×270, 111", "6 10000 0"), ("270/3, 270/4, 5×270, 111, 50", "6 9999 1"),
        ("270/3, 270/4, 270/9, 270, 270/0/32", "6 9998 2"), ("270/3, 270/0/32, 100", "6 10000 0"),
        ("270/3, 9×270, 100/0/32", "6 10000 0"),
    ]);
}

/// "Limit: its row's age; repeat, steps, an answered 10 do not touch it." (f6)
fn limit(checks: &mut Checks) {
    whys(checks, CARD_K, &[
        ("50/3, 50/10", "7 11000 0"), ("50/3, 50/10, 50", "7 10800 1"), ("50/3, 50/10, 50/0/64", "7 10800 1"),
        ("50/3, 50/10, 50, 50/10", "7 10600 2"), ("50/3, 50/10, 50/0/64, 50/11", "7 10600 2"),
        ("50/3, 50/10, 29×50", "7 5200 29"), ("50/3, 50/10, 30×50", "7 5000 30"), ("50/3, 50/10, 30×50, 50/0/256", "7 7000 31"),
        ("50/3, 50/10, 30×50, 50/0/256, 50/0/512", "7 5000 32"), ("50/3, 50/10, 30×50, 50/0/256, 50/11", "7 5000 32"),
        ("50/3, 50/9, 3×50, 50/0/64", "7 10200 4"), ("50/3, 50/1, 3×50, 50/0/64", "7 10200 4"),
        ("50/3, 50/10, 50/0/64, 50/0/64", "2 16000 0"), ("50/3, 50/10, 50/0/64, 50/0/64, 50/10", "7 11000 0"),
    ]);
}

/// The standing cause and the samples since the brake came on, behind a ride; a refused sample changes neither.
fn braked(mut session: Session, ride: &str) -> (u8, i64) {
    run(&mut session, ride);
    (session.cause, session.brake_age)
}

/// "Brake, after the sample: standing cause and samples since it came on, 0 in that sample; later causes do not restart it.
/// Unbraked, the rearm's sample included: 0, 0." (f7)
fn brake(checks: &mut Checks) {
    for (ride, wanted) in [
        ("0", (0, 0)), ("40×0", (0, 0)), ("0/8", (4, 0)), ("40×0, 0/8", (4, 0)), ("0/8, 0", (4, 1)), ("0/8, 40×0", (4, 40)),
        ("0/8, 0/0/0/2", (4, 1)), ("0/8, 0/0/0/2, 0", (4, 2)), ("0/8, 0/0/0/2, 5×0/0/0/2, 0", (4, 7)),
        ("300, 0/8, 0", (5, 2)), ("50/12, 300", (6, 1)), ("50/8, 9×50/12", (4, 9)), ("50/7, 29×50", (0, 0)),
        ("50/7, 30×50", (1, 0)), ("50/7, 31×50", (1, 1)), ("50/7, 29×50, 50/12, 50/12", (1, 1)),
        ("0/8, 0/0/1024", (0, 0)), ("0/8, 0/0/1024, 0", (0, 0)), ("0/8, 0/0/1024, 5×0, 0/12", (6, 0)),
        ("0/8, 0/0/1024, 0/12, 0", (6, 1)), ("0/8, 0/12/1024", (4, 1)), ("0/8, 0, 0/8/1024", (4, 2)),
        ("0/8, 0/12/1024, 0/0/1024", (0, 0)), ("300, 8×0, 0/0/1024", (5, 9)), ("300, 9×0, 0/0/1024", (0, 0)),
        ("0/8, 0/0/1024/2", (0, 0)), ("0/8, 0/12/1024/2", (0, 0)), ("0/8, 0/0/0/2, 0/12/1024", (4, 2)),
        ("0/8/1024", (4, 0)), ("0/8, 1001, 0", (4, 1)), ("0/8, 0/13, 1/0/0/2, 0", (4, 1)), ("0/8, 3×0/0/2048", (4, 0)),
    ] {
        checks.equal(ride, braked(on(CARD_A), ride), wanted);
    }
}

/// "The brake's age advances with the others, is 0 when the brake comes on and at the rearm, range 0..30,000." (f8)
fn brake_top(checks: &mut Checks) {
    let told = |cause: u8, brake_age: i64, ride: &str| {
        let mut session = Session { cause, brake_age, ..on(CARD_A) };
        let last = run(&mut session, ride).pop().unwrap().map(|answer| answer.cause);
        last.map(|cause| (cause, session.brake_age))
    };
    for (cause, since, ride, wanted) in [
        (4, 29_998, "0", Ok((4, 29_999))), (4, 29_998, "2×0", Ok((4, 30_000))), (4, 29_998, "3×0", Ok((4, 30_000))),
        (4, 30_000, "0", Ok((4, 30_000))), (4, 30_000, "40×0", Ok((4, 30_000))), (4, 30_000, "0/0/0/2", Ok((4, 30_000))),
        (4, 30_000, "0/8", Ok((4, 30_000))), (4, 30_000, "0/0/1024", Ok((0, 0))), (4, 30_000, "0/0/1024, 0/8", Ok((4, 0))),
        (4, 30_001, "0", Err(8)), (4, 30_001, "0/0/1024", Err(8)), (4, 30_001, "0/13", Err(8)), (4, 65_535, "0", Err(8)),
        (6, 0, "0", Ok((6, 1))), (7, 0, "0", Err(8)), (255, 0, "0", Err(8)), (7, 30_001, "1001", Err(8)), (1, 5, "0", Ok((1, 6))),
        // Each number is judged alone; an unbraked desk's is 0 after any sample.
        (0, 30_000, "0", Ok((0, 0))), (0, 30_000, "0/8", Ok((4, 0))), (0, 5, "0/8, 0", Ok((4, 1))), (0, 30_001, "0", Err(8)),
        (4, 30_000, "0/13", Err(9)), (4, 30_000, "1/0/0/2", Err(11)),
    ] {
        checks.equal(&format!("cause {cause}, {since} ago, {ride}"), told(cause, since, ride), wanted);
    }
    for (zeros, wanted) in [(29_999, 29_999), (30_000, 30_000), (30_001, 30_000)] {
        checks.equal("braked for long", braked(on(CARD_A), &format!("0/8, {zeros}×0")), (4, wanted));
    }
}

/// 30, 40, 50 and 70 km/h, below every train's T.
const PAIRED: [i64; 4] = [3000, 4000, 5000, 7000];

/// The value of a limit that stands, looked up by its number.
fn value(session: &Session, reason: u8) -> Option<i64> {
    match (reason, session.main) {
        (1, _) => Some(100 * session.settings.vmax as i64),
        (2, _) => Some(100 * session.t()),
        (3, _) if session.mode == BTS => Some(100 * session.settings.bts as i64),
        (4, Main::Row(row)) => Some(session.settings.rows[row].at(session.main_age)),
        (4, Main::Stop) if session.increased => Some(100 * session.t().min(100)),
        (4, Main::Stop) => Some(4000),
        (4, Main::Zone) => Some(1000),
        (5, _) => session.alongside.map(|alongside| alongside.value),
        (6, _) => session.crossing.map(|crossing| session.crossing_value(crossing)),
        (7, _) => {
            // The least of the single and of the paired ones that stand.
            let single = session.limit.map(|limit| session.limit_value(limit));
            let paired = PAIRED.iter().zip(session.paired).filter_map(|(value, age)| age.map(|_| *value));
            paired.chain(single).min()
        }
        _ => None,
    }
}

/// The age of a limit that stands, by its number.
fn age(session: &Session, reason: u8) -> i64 {
    match reason {
        4 => session.main_age,
        5 => session.alongside.unwrap().age,
        6 => session.crossing.unwrap().age,
        7 => match session.limit {
            Some(limit) if session.limit_value(limit) == session.s => limit.age,
            _ => PAIRED.iter().zip(session.paired).find(|(value, _)| **value == session.s).unwrap().1.unwrap(),
        },
        _ => 0,
    }
}

/// On rides by seed: "the named limit stands, equals S, and no limit earlier in the order does" (02 f), by each number in turn;
/// and the brake's age follows from the answers' causes alone.
fn by_seed(checks: &mut Checks) {
    let mut named = [0; 8];
    let kinds = [("random", 400, 80), ("answers", 800, 80), ("drive", 800, 60), ("long", 2000, 20), ("stand", 100, 200),
        ("quiet", 150, 200), ("why", 400, 80), ("pairs", 250, 200)];
    for (kind, size, seeds) in kinds {
        for seed in 1..=seeds {
            let (card, bytes) = make_ride(kind, seed, size).unwrap();
            let (mut cause, mut since) = (0, 0);
            ride::ride(&card, &bytes, |session, answer| {
                let why = session.why();
                let equal = |reason: &u8| value(session, *reason) == Some(answer.s);
                checks.equal("the reason", (1..=7).find(equal), Some(why.reason));
                checks.equal("S is the least", (1..=7).filter_map(|reason| value(session, reason)).min(), Some(answer.s));
                checks.equal("its value and age", (why.value, why.age), (answer.s, age(session, why.reason)));
                since = if cause == 0 || answer.cause == 0 { 0 } else { since + 1 };
                cause = answer.cause;
                checks.equal("the brake's age", session.brake_age, since);
                named[why.reason as usize] += 1;
            });
        }
    }
    checks.equal("many of each", named[1..].iter().all(|count| *count > 300), true);
}
