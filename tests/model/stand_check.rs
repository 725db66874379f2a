//! Checks of standstill: document 02 b), as its readings b1 to b8 have it. Card A, train type 6, tick 100.

use crate::card::{self, Settings};
use crate::cards::{unhex, CARD_A, CARD_R};
use crate::check::Checks;
use crate::desk::{Session, BTS, CONV};
use crate::notation::{on, run};
use crate::ride;
use crate::steer::make_ride;

const REARM: u16 = 1024;
const LAMP_10: u16 = 1024;

pub fn all(checks: &mut Checks) {
    opened(checks);
    mode_change(checks);
    rearm(checks);
    lamp(checks);
    refused_in_the_run(checks);
    both_modes(checks);
    nothing_else(checks);
    crawling(checks);
    top(checks);
    from_the_history(checks);
}

/// What the last sample of a ride is answered with: its cause or its refusal.
fn cause(text: &str) -> Result<u8, u8> {
    run(&mut on(CARD_A), text).pop().unwrap().map(|answer| answer.cause)
}

fn causes(checks: &mut Checks, table: &[(&str, Result<u8, u8>)]) {
    for (text, wanted) in table {
        checks.equal(text, cause(text), *wanted);
    }
}

/// Whether lamp 10 is lit in the last sample of a ride.
fn lit(text: &str) -> bool {
    run(&mut on(CARD_A), text).pop().unwrap().unwrap().lamps & LAMP_10 != 0
}

/// "It opens at 10, so a desk that never moved stands: first sample 0/0/0/2 is accepted, 1/0/0/2 is 11; 0/8, 0/0/1024 is
/// rearmed." (b2)
fn opened(checks: &mut Checks) {
    checks.equal("opens at", on(CARD_A).stood, 10);
    causes(checks, &[
        ("0/0/0/2", Ok(0)), ("1/0/0/2", Err(11)), ("0/8", Ok(4)), ("0/8, 0/0/1024", Ok(0)),
        ("0, 0/0/0/2", Ok(0)), ("40×0, 0/0/0/2", Ok(0)), ("0/8, 40×0, 0/0/1024", Ok(0)),
        // One pulse, and it stands no more.
        ("1, 0/0/0/2", Err(11)), ("0/8, 1, 0/0/1024", Ok(4)), ("0/8, 1/0/1024", Ok(4)),
    ]);
    checks.equal("0/8 lights the lamp", lit("0/8"), true);
    // A fresh cause is not cleared in its own sample, at standstill neither (01, the slips).
    causes(checks, &[("0/8/1024", Ok(4)), ("0/8, 0, 0/8/1024", Ok(4)), ("0/8, 0, 0/8/1024, 0/8/1024", Ok(0))]);
    checks.equal("a fresh cause keeps the lamp", lit("0/8, 0, 0/8/1024"), true);
}

/// "1, 9×0, 0/0/0/2 is accepted, with 8×0 it is 11." (b3) The order stays 8, 9, 10, 11.
fn mode_change(checks: &mut Checks) {
    causes(checks, &[("1, 9×0, 0/0/0/2", Ok(0)), ("1, 8×0, 0/0/0/2", Err(11)), ("1, 9×0, 1/0/0/2", Err(11))]);
    causes(checks, &[("1, 0/13/0/2", Err(9)), ("1, 0/0/2048/2", Err(9))]);
    causes(checks, &[("1, 1001/0/0/2", Err(10)), ("1, 1000/0/0/2", Err(11))]);
    for zeros in 1..=40 {
        let wanted = if zeros >= 9 { Ok(0) } else { Err(11) };
        causes(checks, &[(&format!("1, {zeros}×0, 0/0/0/2"), wanted)]);
    }
    // With one more pulse the run begins anew.
    causes(checks, &[("1, 9×0, 1, 0/0/0/2", Err(11)), ("1, 5×0, 1, 8×0, 0/0/0/2", Err(11))]);
    causes(checks, &[("1, 5×0, 1, 9×0, 0/0/0/2", Ok(0))]);
}

/// "300 (cause 5), 9×0, 0/0/1024 is rearmed, with 8×0 not." (b3)
fn rearm(checks: &mut Checks) {
    causes(checks, &[("300", Ok(5)), ("300, 9×0, 0/0/1024", Ok(0)), ("300, 8×0, 0/0/1024", Ok(5))]);
    causes(checks, &[("300, 9×0, 1/0/1024", Ok(5)), ("300, 9×0, 1, 0/0/1024", Ok(5))]);
    for zeros in 1..=40 {
        let wanted = Ok(if zeros >= 9 { 0 } else { 5 });
        causes(checks, &[(&format!("300, {zeros}×0, 0/0/1024"), wanted)]);
    }
    // A rearm that came too early is not kept for later, and does not touch the count.
    causes(checks, &[("300, 9×0/0/1024, 0", Ok(5)), ("300, 9×0/0/1024", Ok(5)), ("300, 10×0/0/1024", Ok(0))]);
}

/// "Lamp 10 is dark in the ninth 0, lit in the tenth." (b3) "braked after the brake step and at standstill, also with a
/// fresh cause" (b7).
fn lamp(checks: &mut Checks) {
    for zeros in 1..=40 {
        let text = format!("300, {zeros}×0");
        checks.equal(&text, lit(&text), zeros >= 10);
    }
    for (text, wanted) in [("300", false), ("300, 10×0, 1", false), ("300, 9×0, 0/0/1024", false), ("1, 10×0", false),
        ("1, 0/8", false), ("1, 8×0, 0/8", false), ("1, 9×0, 0/8", true), ("1/8", false)] {
        checks.equal(text, lit(text), wanted);
    }
}

/// "A refused sample neither counts nor breaks the run." (b4) Ones that are refused for a value, for too many pulses, for
/// the mode with a pulse and without.
fn refused_in_the_run(checks: &mut Checks) {
    for (refused, number) in [("1001", 10), ("0/13", 9), ("1/13", 9), ("0/0/0/3", 9), ("1/0/0/2", 11), ("0/0/0/2", 11)] {
        causes(checks, &[
            (&format!("300, 5×0, {refused}"), Err(number)),
            (&format!("300, 5×0, {refused}, 4×0, 0/0/1024"), Ok(0)),
            (&format!("300, 5×0, {refused}, 3×0, 0/0/1024"), Ok(5)),
            (&format!("1, 8×0, {refused}, 0, 0/0/0/2"), Ok(0)),
            (&format!("1, 8×0, {refused}, 0/0/0/2"), Err(11)),
        ]);
    }
    // Refused with pulses, a desk that never moved stands on.
    causes(checks, &[("1001, 0/0/0/2", Ok(0)), ("1/0/0/2, 0/0/0/2", Ok(0)), ("0/8, 1001, 0/0/1024", Ok(0))]);
}

/// "Both modes count; a mode change leaves the count alone." (b4)
fn both_modes(checks: &mut Checks) {
    let mut session = on(CARD_A);
    let answers = run(&mut session, "1, 9×0, 0/0/0/2, 0");
    checks.equal("there and back", (answers[10].is_ok(), answers[11].is_ok(), session.mode), (true, true, CONV));
    checks.equal("the count runs on", session.stood, 11);
    // BTS speed is 80: 300 pulses are cause 5 there too.
    causes(checks, &[
        ("0/0/0/2, 300/0/0/2, 9×0/0/0/2, 0/0/1024/2", Ok(0)), ("0/0/0/2, 300/0/0/2, 8×0/0/0/2, 0/0/1024/2", Ok(5)),
        ("0/0/0/2, 1/0/0/2, 9×0/0/0/2, 0", Ok(0)), ("0/0/0/2, 1/0/0/2, 8×0/0/0/2, 0", Err(11)), ("0/0/0/2, 1", Err(11)),
        // A run over a mode change; the rearm in the changing sample, and in the one behind it.
        ("300, 9×0, 0/0/1024/2", Ok(0)), ("300, 9×0, 0/0/0/2, 0/0/1024/2", Ok(0)), ("300, 9×0, 0/0/0/2, 0/0/1024", Ok(0)),
    ]);
    checks.equal("lamp 10 in BTS", lit("0/0/0/2, 300/0/0/2, 10×0/0/0/2"), true);
    checks.equal("dark in the ninth", lit("0/0/0/2, 300/0/0/2, 9×0/0/0/2"), false);
    checks.equal("over a mode change", lit("300, 9×0, 0/0/0/2"), true);
}

/// "Only rearm, lamp 10 and refusal 11 use it." (b6) In the first sample without pulses the limit may go and the crossing
/// turns, which is a matter of m.
fn nothing_else(checks: &mut Checks) {
    let lamps = |text: &str| run(&mut on(CARD_A), text).pop().unwrap().unwrap().lamps;
    checks.equal("a limit at 72 km/h", lamps("200/10, 200/0/64"), 0);
    checks.equal("a limit in the first 0", lamps("200/10, 200/0/64, 0"), 64);
    let limit = |text: &str| run(&mut on(CARD_A), text).pop().unwrap().unwrap().limit;
    checks.equal("removed there", (limit("200/10, 200/0/64, 200/0/64"), limit("200/10, 200/0/64, 0/0/64")), (true, false));
    let icon = |text: &str| run(&mut on(CARD_R), text).pop().unwrap().unwrap().icon;
    checks.equal("a crossing turns", (icon("200/4"), icon("200/4, 0"), icon("200/4, 1")), (0, 2, 2));
}

/// "With a ten-centimetre tick a train at 1 km/h has samples without pulses": a pulse in every fourth.
fn crawling(checks: &mut Checks) {
    let settings = Settings { tick: 1000, ..card::read(2, &unhex(CARD_A)).unwrap() };
    for (zeros, stands) in [(3, false), (8, false), (9, false), (10, true)] {
        let mut session = Session::open(1, settings, 6).unwrap();
        checks.equal("braked", run(&mut session, "1/8").pop().unwrap().map(|answer| answer.cause), Ok(4));
        let mut lit = false;
        for _ in 0..20 {
            for answer in run(&mut session, &format!("{zeros}×0, 1/0/1024")) {
                lit |= answer.unwrap().lamps & LAMP_10 != 0;
            }
        }
        checks.equal("crawling, the lamp", lit, stands);
        checks.equal("crawling, braked", session.cause, 4);
        run(&mut session, &format!("{zeros}×0/0/1024"));
        checks.equal("crawling, rearm", session.cause, if stands { 0 } else { 4 });
    }
}

/// "The count stops at 30,000" (b5).
fn top(checks: &mut Checks) {
    let mut session = on(CARD_A);
    run(&mut session, "29989×0");
    checks.equal("one to go", session.stood, 29_999);
    for _ in 0..3 {
        run(&mut session, "0");
        checks.equal("30,000", session.stood, 30_000);
    }
    checks.equal("it stands", run(&mut session, "0/8, 0/0/1024, 0/0/0/2").pop().unwrap().map(|answer| answer.cause), Ok(0));
    checks.equal("there it stays", session.stood, 30_000);
    run(&mut session, "1/0/0/2");
    checks.equal("a pulse", session.stood, 0);
}

/// Rides by seed, judged by their samples alone: it stands in a sample if neither that nor one of the nine accepted
/// before it has pulses, as many as there are since the opening. The mode changes just there; lamp 10 is lit just there
/// while braked; the brake goes off just there, with a rearm.
fn from_the_history(checks: &mut Checks) {
    let (mut changed, mut refused, mut rearmed, mut too_early) = (0, 0, 0, 0);
    let kinds = [("random", 400, 40), ("answers", 800, 40), ("drive", 800, 40), ("long", 2000, 20), ("stand", 100, 120),
        ("quiet", 150, 80), ("pairs", 250, 80)];
    for (kind, size, seeds) in kinds {
        for seed in 1..=seeds {
            let (card, bytes) = make_ride(kind, seed, size).unwrap();
            let name = format!("{kind} {seed}");
            let samples = ride::recording(&bytes).unwrap().samples;
            let mut answers = Vec::new();
            let end = ride::ride(&card, &bytes, |_, answer| answers.push(answer));
            let stands = |n: usize| samples[n.saturating_sub(9)..=n].iter().all(|sample| sample.pulses == 0);
            for (n, answer) in answers.iter().enumerate() {
                let before = if n == 0 { (CONV, 0) } else { (samples[n - 1].mode, answers[n - 1].cause) };
                if samples[n].mode != before.0 {
                    changed += 1;
                    checks.equal(&name, stands(n), true);
                }
                checks.equal(&name, answer.lamps & LAMP_10 != 0, answer.cause != 0 && stands(n));
                let pressed = samples[n].buttons & REARM != 0;
                if before.1 != 0 && answer.cause == 0 {
                    rearmed += 1;
                    checks.equal(&name, pressed && stands(n), true);
                }
                if before.1 != 0 && pressed && !stands(n) {
                    too_early += 1;
                    checks.equal(&name, answer.cause, before.1);
                }
            }
            if end == Some(11) {
                refused += 1;
                let n = answers.len();
                let before = if n == 0 { CONV } else { samples[n - 1].mode };
                checks.equal(&name, (samples[n].mode, stands(n)), (CONV + BTS - before, false));
            }
        }
    }
    checks.equal("many of each", [changed, refused, rearmed, too_early].iter().all(|count| *count > 50), true);
}
