//! What a batch of replays meets: both sides of every line of d1 to d7. The rows of samples and sessions are replay_runs.rs's.

use crate::desk::{train_speed, Sample, Session, BTS, CODE_TOP};
use crate::replay::{due, left, replay, End, Handed, Replayed, STEPS_TOP};
use crate::replays::{case_in, start, whole_samples, Case};
use crate::ride;
use std::collections::BTreeMap;

/// Those of the samples' refusals follow, each number at each spot.
const ROWS: [&str; 118] = [
    "card refused 1", "card refused 2", "card refused 3", "card refused 4", "card refused 5",
    "TYPE refused 7", "TYPE refused 7, a recording that is 14", "the fastest TYPE that is allowed", "digits in capitals",
    "14, fewer than 6 bytes", "14, shorter than stated", "14, shorter by whole samples", "14, longer than stated",
    "14, longer by a whole sample", "14, as stated, not 6 + 6n", "14, stated 60012", "14, version 0", "14, version 2",
    "14, quota 0", "14, place past the end", "14, steps 9 too", "14, a bad sample too",
    "steps 0, samples run", "steps 8, samples run", "a limit set, with steps before",
    "8, steps 9", "8, steps 255", "8, quota 0", "8, place past the end", "8, no samples", "8, a bad sample too",
    "8 again, the session given back",
    "place 0", "place in the middle", "place n - 1", "place n", "place n + 1", "place the greatest",
    "place 2^32 above one inside", "place 2^63 above one inside", "no samples, place 0", "no samples, place above 0",
    "quota 0", "quota 0 past the end", "quota below what is left", "quota one below", "quota what is left", "quota one above",
    "quota the greatest", "quota 2^32 above a smaller", "quota 2^63 above a smaller",
    "place + quota 2^64 - 1", "place + quota 2^64", "place + quota above 2^64", "place + quota above, past the end",
    "none ran", "one ran", "all ran, from place 0",
    "byte 5 the session's type", "byte 5 is 0", "byte 5 is 99", "byte 5 another type", "byte 5 faster than vmax",
    "beacon 12, runs", "beacon 13, 9", "buttons 2047, run", "buttons 2048, 9", "mode 0, 9", "mode 3, 9",
    "m 100,000, runs", "one pulse more, 10", "mode changed at standstill", "11 with pulses", "11 without pulses",
    "9, 10 too", "9, 11 too", "10, 11 too",
    "refused, the only one due", "a bad sample, quota 0",
    "behind a refusal, the same again", "behind a refusal, quota 0", "behind a refusal, past it", "behind a refusal, back",
    "on from where the last ended", "on, behind one that ran none", "a jump back", "a jump forward",
    "begins with a main window", "begins with the zone's window", "begins with a side window", "begins where one is missed",
    "begins with beacon 3's option", "begins braked", "begins with stop", "begins with stop alongside", "begins in BTS",
    "begins with override armed", "begins with a reminder", "begins with a crossing", "begins with a limit",
    "begins with steps", "begins with a paired limit", "begins with the first of a pair", "begins behind pulses", "begins at 1 to 9 without pulses", "begins behind a 12",
    "begins with the last beacon again", "begins with another beacon than the last",
    "in two and as one", "in two and as one, in the middle", "in two and as one, first ran none",
    "in two and as one, second ran none", "in two and as one, neither", "in two and as one, sum above 2^64",
    "in two and as one, refused in second", "in two and as one, refused at second",
    "in two and as one, refused 8 or 14", "in two and as one, past the end",
];
const NUMBERS: [u8; 3] = [9, 10, 11];
const SPOTS: [&str; 5] = ["first due", "in the middle", "last due", "just behind the quota", "just before the place"];

/// How often a batch meets each row.
pub fn cover(batch: &str) -> Vec<(String, u64)> {
    let mut counts: BTreeMap<String, u64> = BTreeMap::new();
    let mut last: Option<Case> = None;
    for text in batch.lines().filter_map(|line| line.strip_prefix("replay ")) {
        let case = case_in(text);
        let mut met = Vec::new();
        meet(&case, &mut met);
        if let Some(last) = &last {
            meet_pair(last, &case, &mut met);
        }
        if text.bytes().any(|byte| byte.is_ascii_uppercase()) {
            met.push("digits in capitals".into());
        }
        for row in met {
            *counts.entry(row).or_insert(0) += 1;
        }
        last = Some(case);
    }
    let spots = NUMBERS.iter().flat_map(|number| SPOTS.iter().map(move |spot| format!("{number} {spot}")));
    let rows = ROWS.iter().map(|row| row.to_string()).chain(spots);
    rows.map(|row| {
        let count = counts.get(&row).copied().unwrap_or(0);
        (row, count)
    }).collect()
}

/// A call: what it is given and what it gives.
pub struct Call<'a> {
    pub case: &'a Case,
    pub samples: &'a [Sample],
    pub place: u64,
    pub quota: u64,
    pub start: &'a Handed,
    pub gives: &'a Replayed,
}

fn meet(case: &Case, met: &mut Vec<String>) {
    let mut from = match start(case) {
        Ok(start) => start,
        Err(number) => return meet_opening(case, number, met),
    };
    if train_speed(case.train) <= from.session.settings.vmax as i64 && !allowed(case.train + 1, &from.session) {
        met.push("the fastest TYPE that is allowed".into());
    }
    let samples = ride::recording(&case.recording).map_or(Vec::new(), |recording| recording.samples);
    let mut before: Option<(u64, Replayed)> = None;
    for (place, quota) in &case.calls {
        let gives = replay(&case.recording, *place, *quota, &from);
        let call = Call { case, samples: &samples, place: *place, quota: *quota, start: &from, gives: &gives };
        match gives.end {
            End::Refused(14) => call.meet_14(met),
            End::Refused(_) => call.meet_8(before.is_some(), met),
            _ => {
                call.meet_place(met);
                call.meet_quota(met);
                call.meet_type(met);
                call.meet_steps(met);
                call.meet_samples(met);
                call.meet_spots(met);
                if let Some((place, replayed)) = &before {
                    call.meet_behind(*place, replayed, met);
                    call.meet_start(met);
                }
            }
        }
        from = gives.handed.clone();
        before = Some((*place, gives));
    }
}

fn allowed(train: u8, session: &Session) -> bool {
    (1..=8).contains(&train) && train_speed(train) <= session.settings.vmax as i64
}

fn meet_opening(case: &Case, number: u8, met: &mut Vec<String>) {
    if number != 7 {
        return met.push(format!("card refused {number}"));
    }
    met.push("TYPE refused 7".into());
    if ride::recording(&case.recording).is_err() {
        met.push("TYPE refused 7, a recording that is 14".into());
    }
}

impl<'a> Call<'a> {
    /// "14, then 8, also at quota 0 or past the end" (d3).
    fn meet_14(&self, met: &mut Vec<String>) {
        let bytes = &self.case.recording;
        let whole = whole_samples(bytes);
        let mut rows = Vec::new();
        if bytes.len() < 6 {
            rows.push("14, fewer than 6 bytes");
        } else {
            let stated = u32::from_be_bytes([bytes[0], bytes[1], bytes[2], bytes[3]]) as usize;
            let good = stated >= 6 && stated % 6 == 0 && stated <= 60_006 && bytes[4] == 1;
            let by = stated.abs_diff(bytes.len());
            rows.extend(match (good, bytes.len() < stated) {
                (true, true) if by % 6 == 0 => Some("14, shorter by whole samples"),
                (true, true) => Some("14, shorter than stated"),
                (true, false) if by == 6 => Some("14, longer by a whole sample"),
                (true, false) => Some("14, longer than stated"),
                (false, _) if by == 0 && bytes[4] == 1 => Some("14, as stated, not 6 + 6n"),
                (false, _) if by == 0 && bytes[4] == 0 => Some("14, version 0"),
                (false, _) if by == 0 && bytes[4] == 2 => Some("14, version 2"),
                (false, _) if stated == 60_012 => Some("14, stated 60012"),
                _ => None,
            });
            if self.place < whole && self.quota > 0 {
                let six = &bytes[6 + 6 * self.place as usize..][..6];
                if six[2] > CODE_TOP || six[5] == 0 || six[5] > BTS {
                    rows.push("14, a bad sample too");
                }
            }
        }
        if self.quota == 0 {
            rows.push("14, quota 0");
        }
        if self.place >= whole {
            rows.push("14, place past the end");
        }
        if self.case.steps as i64 > STEPS_TOP {
            rows.push("14, steps 9 too");
        }
        met.extend(rows.into_iter().map(String::from));
    }

    /// "8 even if none runs".
    fn meet_8(&self, again: bool, met: &mut Vec<String>) {
        if self.start.steps == 9 || self.start.steps == 255 {
            met.push(format!("8, steps {}", self.start.steps));
        }
        let n = self.samples.len() as u64;
        if self.quota == 0 {
            met.push("8, quota 0".into());
        }
        if self.place >= n && n > 0 {
            met.push("8, place past the end".into());
        }
        if n == 0 {
            met.push("8, no samples".into());
        }
        if again {
            met.push("8 again, the session given back".into());
        }
        let due = due(self.samples, self.place, self.quota);
        if due.first().is_some_and(|sample| self.start.session.clone().sample(*sample).is_err()) {
            met.push("8, a bad sample too".into());
        }
    }

    /// "at n and beyond none are left, nothing is refused" (d1). A quota of none says nothing of its place.
    fn meet_place(&self, met: &mut Vec<String>) {
        let (n, place) = (self.samples.len() as u64, self.place);
        if self.quota == 0 {
            return;
        }
        if n == 0 {
            return met.push(format!("no samples, place {}", if place == 0 { "0" } else { "above 0" }));
        }
        met.extend(match place {
            0 => Some("place 0"),
            u64::MAX => Some("place the greatest"),
            _ if place == n - 1 => Some("place n - 1"),
            _ if place < n => Some("place in the middle"),
            _ if place == n => Some("place n"),
            _ if place == n + 1 => Some("place n + 1"),
            _ if place % (1 << 32) < n && place < 1 << 63 => Some("place 2^32 above one inside"),
            _ if place % (1 << 63) < n => Some("place 2^63 above one inside"),
            _ => None,
        }.map(String::from));
    }

    /// "the smaller of quota and samples left"; "Place, quota and their sums never wrap." (d7)
    fn meet_quota(&self, met: &mut Vec<String>) {
        let left = left(self.samples, self.place).len() as u64;
        let quota = self.quota;
        let sum = self.place as u128 + quota as u128;
        let mut rows = Vec::new();
        match quota {
            0 if left == 0 => rows.push("quota 0 past the end"),
            0 => rows.push("quota 0"),
            _ if left == 0 && sum > 1 << 64 => rows.push("place + quota above, past the end"),
            _ if left == 0 => {}
            u64::MAX => rows.push("quota the greatest"),
            _ if quota + 1 == left => rows.extend(["quota one below", "quota below what is left"]),
            _ if quota < left => rows.push("quota below what is left"),
            _ if quota == left => rows.push("quota what is left"),
            _ if quota == left + 1 => rows.push("quota one above"),
            _ if quota < 1 << 63 && quota % (1 << 32) < left => rows.push("quota 2^32 above a smaller"),
            _ if quota % (1 << 63) < left => rows.push("quota 2^63 above a smaller"),
            _ => {}
        }
        if left > 0 {
            match sum {
                0xffff_ffff_ffff_ffff => rows.push("place + quota 2^64 - 1"),
                0x1_0000_0000_0000_0000 => rows.push("place + quota 2^64"),
                _ if sum > 1 << 64 => rows.push("place + quota above 2^64"),
                _ => {}
            }
        }
        match self.gives.ran {
            0 => rows.push("none ran"),
            1 => rows.push("one ran"),
            ran if self.place == 0 && ran == left => rows.push("all ran, from place 0"),
            _ => {}
        }
        met.extend(rows.into_iter().map(String::from));
    }

    /// Steps in range run. A limit that is set, here at its final value, has none of those that stood without it.
    fn meet_steps(&self, met: &mut Vec<String>) {
        if self.gives.ran == 0 {
            return;
        }
        if self.start.steps == 0 || self.start.steps == STEPS_TOP {
            met.push(format!("steps {}, samples run", self.start.steps));
        }
        let behind = &self.gives.handed.session;
        let set = self.start.session.limit.is_none() && behind.limit.is_some_and(|limit| behind.limit_at_final(limit));
        if set && self.start.steps > 0 {
            met.push("a limit set, with steps before".into());
        }
    }

    /// "The session's train type rules".
    fn meet_type(&self, met: &mut Vec<String>) {
        if self.gives.ran == 0 {
            return;
        }
        let session = &self.start.session;
        met.extend(match self.case.recording[5] {
            byte if byte == session.train => Some("byte 5 the session's type"),
            0 => Some("byte 5 is 0"),
            99 => Some("byte 5 is 99"),
            byte if allowed(byte, session) => Some("byte 5 another type"),
            1..=8 => Some("byte 5 faster than vmax"),
            _ => None,
        }.map(String::from));
    }
}

/// "Two quotas, the second from where an unrefused first ended, give what one of their sum gives": a case in two, and the next
/// as one.
fn meet_pair(split: &Case, whole: &Case, met: &mut Vec<String>) {
    let (Some(at), Ok(mut from)) = (split.calls.len().checked_sub(2), start(split)) else { return };
    let (place, first, second) = (split.calls[at].0, split.calls[at].1, split.calls[at + 1]);
    let one = [&split.calls[..at], &[(place, first.saturating_add(second.1))]].concat();
    if (Case { calls: one, ..split.clone() }) != *whole {
        return;
    }
    for (place, quota) in &split.calls[..at] {
        from = replay(&split.recording, *place, *quota, &from).handed;
    }
    let ones = replay(&split.recording, place, first, &from);
    if matches!(ones.end, End::RefusedAt(..)) || second.0 as u128 != place as u128 + ones.ran as u128 {
        return;
    }
    let twos = replay(&split.recording, second.0, second.1, &ones.handed);
    met.push("in two and as one".into());
    let n = whole_samples(&split.recording);
    let mut row = |is_so: bool, name: &str| met.extend(if is_so { Some(format!("in two and as one, {name}")) } else { None });
    row(at > 0 && twos.ran > 0, "in the middle");
    row(ones.ran == 0 && twos.ran > 0, "first ran none");
    row(ones.ran > 0 && twos.ran == 0 && twos.end == End::Done, "second ran none");
    row(ones.ran == 0 && twos.ran == 0 && place < n, "neither");
    row(first.checked_add(second.1).is_none(), "sum above 2^64");
    row(matches!(twos.end, End::RefusedAt(..)) && twos.ran > 0, "refused in second");
    row(matches!(twos.end, End::RefusedAt(..)) && twos.ran == 0 && ones.ran > 0, "refused at second");
    row(matches!(twos.end, End::Refused(_)), "refused 8 or 14");
    row(place >= n, "past the end");
}
