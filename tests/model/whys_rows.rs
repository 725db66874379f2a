//! What a batch of reasons meets: both sides of f7 and f8 where no ride shows them, and each reason.

use crate::desk::{train_speed, Sample, Session, AGE_TOP, BTS, CAUSE_TOP, STANDING};
use crate::why::LIMIT;
use crate::whys::{case_in, samples_of, start, Case};
use std::collections::BTreeMap;

const ROWS: [&str; 69] = [
    "card refused 1", "card refused 2", "card refused 3", "card refused 4", "card refused 5", "TYPE refused 7",
    "TYPE refused 7, CAUSE 7", "the fastest TYPE that is allowed", "digits in capitals", "no samples",
    "bytes behind the last sample", "bytes, and no whole sample",
    "CAUSE 0, runs", "CAUSE 1, runs", "CAUSE 2, runs", "CAUSE 3, runs", "CAUSE 4, runs", "CAUSE 5, runs", "CAUSE 6, runs",
    "CAUSE 7, 8", "CAUSE 255, 8",
    "SINCE 0, runs", "SINCE 1, runs", "SINCE 29998, runs", "SINCE 29999, runs", "SINCE 30000, runs", "SINCE 30001, 8",
    "SINCE 65535, 8", "CAUSE 7, SINCE 30001, 8", "CAUSE 0, SINCE 30001, 8", "8, a bad sample", "8 again, in the next sample",
    "CAUSE 0, SINCE above 0, stays off", "CAUSE 0, SINCE above 0, comes on",
    "the brake comes on, 0", "from 0 to 1", "from 29999 to 30000", "30000 stays", "30000 stays, a later cause",
    "30000 stays, entering BTS", "30000 stays, leaving BTS",
    "9 between, goes on by one", "10 between, goes on by one", "11 between, goes on by one", "refused twice, goes on by one",
    "refused at 30000", "refused, the brake comes on behind it",
    "entering BTS, goes on", "leaving BTS, goes on",
    "rearm, 0 and 0", "rearm at 30000, 0 and 0", "rearm entering BTS, 0 and 0", "rearm leaving BTS, 0 and 0",
    "rearm with pulses, goes on", "rearm up to 9, goes on", "rearm with a fresh cause, goes on", "comes on again behind a rearm",
    "a lower cause later, goes on", "the same cause later, goes on", "a higher cause later, goes on",
    "unbraked, 0 and 0",
    "reason 1", "reason 2", "reason 3", "reason 4", "reason 5", "reason 6", "reason 7", "reason 7, a paired limit",
];

/// How often a batch meets each row.
pub fn cover(batch: &str) -> Vec<(String, u64)> {
    let mut counts: BTreeMap<String, u64> = BTreeMap::new();
    for text in batch.lines().filter_map(|line| line.strip_prefix("why ")) {
        let mut met = Vec::new();
        meet(&case_in(text), &mut met);
        if text.bytes().any(|byte| byte.is_ascii_uppercase()) {
            met.push("digits in capitals".into());
        }
        for row in met {
            *counts.entry(row).or_insert(0) += 1;
        }
    }
    ROWS.iter().map(|row| (row.to_string(), counts.get(*row).copied().unwrap_or(0))).collect()
}

fn meet(case: &Case, met: &mut Vec<String>) {
    let session = match start(case) {
        Ok(session) => session,
        Err(7) if case.cause > CAUSE_TOP => return met.extend(["TYPE refused 7", "TYPE refused 7, CAUSE 7"].map(String::from)),
        Err(7) => return met.push("TYPE refused 7".into()),
        Err(number) => return met.push(format!("card refused {number}")),
    };
    if case.train == 8 || train_speed(case.train + 1) > session.settings.vmax as i64 {
        met.push("the fastest TYPE that is allowed".into());
    }
    match (case.samples.len() / 6, case.samples.len() % 6) {
        (0, 0) => met.push("no samples".into()),
        (0, _) => met.push("bytes, and no whole sample".into()),
        (_, 0) => {}
        _ => met.push("bytes behind the last sample".into()),
    }
    let samples = samples_of(case);
    match samples.first().map(|sample| session.clone().sample(*sample)) {
        None => {}
        Some(Err(8)) => meet_8(case, &session, &samples, met),
        Some(first) => {
            if first.is_ok() {
                met.push(format!("CAUSE {}, runs", case.cause));
                met.push(format!("SINCE {}, runs", case.since));
            }
            meet_samples(session, samples, met);
        }
    }
}

/// "above 30,000 the session is out of its ranges", and a cause above 6; it is 8 before anything of the sample.
fn meet_8(case: &Case, session: &Session, samples: &[Sample], met: &mut Vec<String>) {
    match (case.cause, case.since as i64 > AGE_TOP) {
        (0, _) => met.push(format!("CAUSE 0, SINCE {}, 8", case.since)),
        (1..=CAUSE_TOP, _) => met.push(format!("SINCE {}, 8", case.since)),
        (cause, false) => met.push(format!("CAUSE {cause}, 8")),
        (cause, true) => met.push(format!("CAUSE {cause}, SINCE {}, 8", case.since)),
    }
    let mut inside = Session { cause: 0, brake_age: 0, ..session.clone() };
    if inside.sample(samples[0]).is_err() {
        met.push("8, a bad sample".into());
    }
    if samples.len() > 1 {
        met.push("8 again, in the next sample".into());
    }
}

/// Every sample: what is between the session before it and that behind it, and the refusals since the last accepted one.
fn meet_samples(mut session: Session, samples: Vec<Sample>, met: &mut Vec<String>) {
    let mut refused = Vec::new();
    let mut rearmed = false;
    for sample in samples {
        let before = session.clone();
        if let Err(number) = session.sample(sample) {
            refused.push(number);
            continue;
        }
        met.push(format!("reason {}", session.why().reason));
        if session.why().reason == LIMIT && !session.names_single() {
            met.push("reason 7, a paired limit".into());
        }
        match (before.cause, session.cause) {
            (0, 0) if before.brake_age > 0 => met.push("CAUSE 0, SINCE above 0, stays off".into()),
            (0, 0) => met.push("unbraked, 0 and 0".into()),
            (0, _) => meet_on(&before, &refused, rearmed, met),
            (_, 0) => meet_rearm(&before, &session, met),
            _ => meet_goes_on(&before, &session, &refused, met),
        }
        rearmed |= before.cause != 0 && session.cause == 0;
        refused.clear();
    }
}

/// "is 0 when the brake comes on" (f8).
fn meet_on(before: &Session, refused: &[u8], rearmed: bool, met: &mut Vec<String>) {
    met.push("the brake comes on, 0".into());
    if before.brake_age > 0 {
        met.push("CAUSE 0, SINCE above 0, comes on".into());
    }
    if !refused.is_empty() {
        met.push("refused, the brake comes on behind it".into());
    }
    if rearmed {
        met.push("comes on again behind a rearm".into());
    }
}

/// "and at the rearm" (f8).
fn meet_rearm(before: &Session, session: &Session, met: &mut Vec<String>) {
    met.push("rearm, 0 and 0".into());
    if before.brake_age == AGE_TOP {
        met.push("rearm at 30000, 0 and 0".into());
    }
    if session.mode != before.mode {
        met.push(format!("rearm {} BTS, 0 and 0", way(session)));
    }
}

fn way(session: &Session) -> &'static str {
    if session.mode == BTS { "entering" } else { "leaving" }
}

/// Braked before and after: "later causes do not restart it" (f7).
fn meet_goes_on(before: &Session, session: &Session, refused: &[u8], met: &mut Vec<String>) {
    let at_top = before.brake_age == AGE_TOP;
    match before.brake_age {
        0 => met.push("from 0 to 1".into()),
        29_999 => met.push("from 29999 to 30000".into()),
        AGE_TOP => met.push("30000 stays".into()),
        _ => {}
    }
    match refused {
        [] => {}
        _ if at_top => met.push("refused at 30000".into()),
        [number] => met.push(format!("{number} between, goes on by one")),
        _ => met.push("refused twice, goes on by one".into()),
    }
    if session.mode != before.mode {
        met.push(if at_top { format!("30000 stays, {} BTS", way(session)) } else { format!("{} BTS, goes on", way(session)) });
    }
    if let Some(cause) = session.arisen.iter().min() {
        met.push(match cause.cmp(&before.cause) {
            _ if at_top => "30000 stays, a later cause".into(),
            std::cmp::Ordering::Less => "a lower cause later, goes on".into(),
            std::cmp::Ordering::Equal => "the same cause later, goes on".into(),
            std::cmp::Ordering::Greater => "a higher cause later, goes on".into(),
        });
    }
    if session.rearm {
        met.push(match session.stood {
            0 => "rearm with pulses, goes on".into(),
            STANDING.. => "rearm with a fresh cause, goes on".into(),
            _ => "rearm up to 9, goes on".into(),
        });
    }
}
