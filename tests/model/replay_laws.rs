//! What holds of every replay, on rides by seed: it is the whole ride as far as it goes, in two as in one, and what is refused
//! gives the session back.

use crate::check::Checks;
use crate::desk::{Answer, Sample, Session};
use crate::make::Rng;
use crate::replay::{replay, End, Handed, Replayed};
use crate::replay_damage::refused_sample;
use crate::replay_make::{self, ride, Ride};
use crate::replays::{answers, case_in, written, Case};
use crate::ride::{self, recorded};
use crate::steer::make_ride;

pub fn all(checks: &mut Checks) {
    as_the_whole_ride(checks);
    by_the_samples(checks);
    in_two_as_in_one(checks);
    batches(checks);
}

/// All that a session holds.
fn all_of(session: &Session) -> String {
    format!("{session:?}")
}

/// The last answer of a quota of k from place 0 is line k of the whole ride, and the session is the one behind that line.
fn as_the_whole_ride(checks: &mut Checks) {
    for kind in ["random", "answers", "drive", "long", "stand", "quiet", "pairs", "damaged"] {
        for seed in 1..=12 {
            let (card, bytes) = make_ride(kind, seed, 90).unwrap();
            let Ok((session, samples)) = ride::open(&card, &bytes) else { continue };
            if samples.len() > 1000 {
                continue; // 10,000 of standing
            }
            let start = Handed::new(session);
            let mut lines: Vec<(Option<Answer>, String)> = vec![(None, all_of(&start.session))];
            let refusal = ride::ride(&card, &bytes, |session, answer| lines.push((Some(answer), all_of(session))));
            let accepted = lines.len() as u64 - 1;
            for quota in 0..=samples.len() as u64 + 1 {
                let ran = quota.min(accepted);
                let end = match refusal {
                    Some(number) if quota > accepted => End::RefusedAt(number, accepted),
                    _ => End::Done,
                };
                let got = replay(&bytes, 0, quota, &start);
                checks.equal("as the whole ride", (got.ran, got.end), (ran, end));
                checks.equal("its line", (got.last, all_of(&got.handed.session)), lines[ran as usize].clone());
            }
        }
    }
}

/// A short ride, most often with samples that are refused, and a session to begin in: as opened, or somewhere in the ride.
fn short(rng: &mut Rng) -> (Ride, Vec<u8>, Handed) {
    let mut ride = ride(rng, 10);
    ride.samples.truncate(12);
    let middle = rng.within(0, 12) as u64;
    let session = ride.before(&[], 0, rng.pick(&[0, middle]));
    for _ in 0..rng.within(0, 2) {
        let at = rng.within(0, ride.n() as i64 - 1) as usize;
        let number = rng.pick(&[9, 10, 11]);
        refused_sample(rng, number, &mut ride.samples[at], &session);
    }
    let bytes = recorded(rng.byte(), &ride.samples);
    (ride, bytes, Handed::new(session))
}

/// "the number of samples run, which equals the smaller of quota and samples left, or the samples before the first refused one in
/// the quota", counted sample by sample.
fn counted(samples: &[Sample], place: u64, quota: u64, start: &Handed) -> (u64, Option<Answer>, String, End) {
    let mut session = start.session.clone();
    let (mut ran, mut last) = (0, None);
    for (position, sample) in samples.iter().enumerate() {
        if (position as u64) < place || ran == quota {
            continue;
        }
        match session.sample(*sample) {
            Ok(answer) => (ran, last) = (ran + 1, Some(answer)),
            Err(number) => return (ran, last, all_of(&session), End::RefusedAt(number, position as u64)),
        }
    }
    (ran, last, all_of(&session), End::Done)
}

fn whole(replayed: &Replayed) -> (u64, Option<Answer>, String, End) {
    (replayed.ran, replayed.last, all_of(&replayed.handed.session), replayed.end)
}

/// At every place with every quota. What is refused gives what a quota of the samples before it gives, and is refused again there.
fn by_the_samples(checks: &mut Checks) {
    let mut rng = Rng::new("laws", 1);
    let mut refused = 0;
    for _ in 0..120 {
        let (ride, bytes, start) = short(&mut rng);
        for place in (0..=ride.n() + 1).chain([u64::MAX]) {
            for quota in (0..=ride.n() + 1).chain([u64::MAX]) {
                let got = replay(&bytes, place, quota, &start);
                checks.equal("by the samples", whole(&got), counted(&ride.samples, place, quota, &start));
                if let End::RefusedAt(number, position) = got.end {
                    refused += 1;
                    let before = replay(&bytes, place, got.ran, &start);
                    checks.equal("given back", whole(&before), (got.ran, got.last, all_of(&got.handed.session), End::Done));
                    let again = replay(&bytes, position, quota, &got.handed);
                    checks.equal("refused again", (again.ran, again.last, again.end), (0, None, End::RefusedAt(number, position)));
                }
            }
        }
    }
    checks.equal("many are refused", refused > 2000, true);
}

/// "Two quotas, the second from where an unrefused first ended, give what one of their sum gives, the first's answer standing if
/// the second runs none." If the second is refused, "the sum is refused at that position, runs added" (d6).
fn in_two_as_in_one(checks: &mut Checks) {
    let mut rng = Rng::new("laws", 2);
    let mut refused = 0;
    for _ in 0..40 {
        let (ride, bytes, start) = short(&mut rng);
        let quotas: Vec<u64> = (0..=ride.n() + 1).chain([u64::MAX]).collect();
        for place in (0..=ride.n() + 1).chain([u64::MAX]) {
            for first_quota in &quotas {
                let first = replay(&bytes, place, *first_quota, &start);
                if first.end != End::Done {
                    continue;
                }
                for second_quota in &quotas {
                    let second = replay(&bytes, place + first.ran, *second_quota, &first.handed);
                    let one = replay(&bytes, place, first_quota.saturating_add(*second_quota), &start);
                    let two = (first.ran + second.ran, second.last.or(first.last), all_of(&second.handed.session), second.end);
                    checks.equal("in two as in one", whole(&one), two);
                    refused += (second.end != End::Done) as u32;
                }
            }
        }
    }
    checks.equal("many seconds are refused", refused > 2000, true);
}

/// A line of a call in its three parts: how many ran, the answer, the end.
fn parts(line: &str) -> (u64, &str, &str) {
    let (ran, rest) = line.split_once(' ').unwrap();
    let end = rest.find("done").or(rest.find("refused")).unwrap();
    (ran.parse().unwrap(), rest[..end].trim_end(), &rest[end..])
}

/// Batches by seed: a longer one begins as a shorter, its lines are short, and a case in two is answered as the same in one.
fn batches(checks: &mut Checks) {
    let batch = replay_make::batch(1, 5200);
    checks.equal("a longer batch", batch.starts_with(&replay_make::batch(1, 700)), true);
    checks.equal("short lines", batch.lines().all(|line| line.len() < 2000), true);
    let cases: Vec<Case> = batch.lines().map(|line| case_in(line.strip_prefix("replay ").unwrap())).collect();
    let mut pairs = 0;
    for two in cases.windows(2) {
        let (split, one) = (&two[0], &two[1]);
        checks.equal("written and read", case_in(&written(split)), split.clone());
        let at = one.calls.len() - 1;
        let same = Case { calls: one.calls.clone(), ..split.clone() } == *one;
        if !same || split.calls.len() != at + 2 || split.calls[..at] != one.calls[..at] {
            continue;
        }
        let (in_two, in_one) = (answers(split), answers(one));
        let (in_two, in_one): (Vec<&str>, Vec<&str>) = (in_two.lines().collect(), in_one.lines().collect());
        if in_one.len() <= at {
            continue; // the opening is refused
        }
        let (first, second, whole) = (parts(in_two[at]), parts(in_two[at + 1]), parts(in_one[at]));
        if first.2.contains(" at ") {
            continue; // "Of a refused first nothing is promised."
        }
        pairs += 1;
        let answer = if second.1 == "none" { first.1 } else { second.1 };
        checks.equal("a case in two", (first.0 + second.0, answer, second.2), whole);
    }
    checks.equal("many pairs", pairs > 500, true);
}
