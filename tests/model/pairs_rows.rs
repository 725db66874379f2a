//! What a ride meets of limit beacons in pairs, 02 g): both sides of each line of g8 to g28.

use crate::card::PAIR_SPEEDS;
use crate::desk::{below, First, Sample, Session, BTS, METRE, QUIET};
use crate::pairs;
use crate::why;

/// What happened since the first was read.
#[derive(Clone, Copy, Default)]
struct Since {
    samples: i64,
    missed: bool,
    braked: bool,
    rearmed: bool,
    taken_off: bool,
    beacon: bool,
    set_by_9: bool,
    set_by_1: bool,
    /// As it was read: a single limit stood; one that a 10 or 11 had set; paired limits stood.
    stood: bool,
    lone: bool,
    paired_stood: bool,
    /// It came too far behind another first.
    far: bool,
}

/// The session behind the accepted sample before, and what went on until then.
pub struct Meter {
    before: Option<Session>,
    since: Since,
    /// The beacon that last set the single limit: an answered 1 or 9, or a 10 or 11.
    setter: &'static str,
    /// The samples since something was taken off.
    removed: i64,
    /// The last 10 or 11 was a second.
    behind_second: bool,
    /// A first that a mode change parted, and the travel from it.
    parted: Option<(&'static str, i64)>,
}

/// An accepted sample: the session before it and that behind it.
struct Seen<'a> {
    before: &'a Session,
    session: &'a Session,
    sample: Sample,
}

/// The names of those that are so.
fn those(rows: &[(bool, &str)]) -> Vec<String> {
    rows.iter().filter(|(is_so, _)| *is_so).map(|(_, name)| name.to_string()).collect()
}

impl Seen<'_> {
    fn same_mode(&self) -> bool {
        self.before.mode == self.session.mode
    }

    fn reads(&self, codes: &[u8]) -> bool {
        let side = [4, 9, 10, 11].contains(&self.sample.beacon);
        let heard = self.session.mode != BTS || (side && self.session.settings.function(3));
        heard && codes.contains(&self.sample.beacon) && self.sample.beacon != self.before.last_code
    }

    /// The first of the pair that this sample makes, its own m counted.
    fn pair(&self) -> Option<First> {
        let first = self.before.first.filter(|_| self.same_mode() && self.reads(&[10, 11]) && self.session.first.is_none())?;
        Some(First { distance: first.distance + self.session.m, ..first })
    }

    /// This sample's own first.
    fn first(&self) -> Option<First> {
        self.session.first.filter(|_| self.reads(&[10, 11]))
    }

    fn pressed(&self, button: u16) -> bool {
        self.sample.buttons >> button & 1 == 1
    }

    /// Button 6 goes to a main window of 1, or to a side window.
    fn answers_1(&self) -> bool {
        let waits = self.same_mode() && self.before.main_window.is_some_and(|window| window.beacon == 1 && window.left > 1);
        waits && self.sample.buttons & 0b10_0111 == 0 && self.pressed(6)
    }

    fn answers_side(&self) -> Option<u8> {
        let window = self.before.side_window.filter(|window| self.same_mode() && window.left > 1)?;
        let by_5 = window.beacon == 9 && self.pressed(5);
        if self.pressed(6) && !by_5 && !self.answers_1() { Some(window.beacon) } else { None }
    }

    /// How the single limit is set in this sample, if it is.
    fn sets(&self) -> Option<&'static str> {
        match self.session.limit {
            None => None,
            Some(_) if self.first().is_some() || (self.session.version != 3 && self.reads(&[10, 11])) => Some("10"),
            Some(_) if self.answers_1() => Some("1"),
            Some(_) if self.answers_side() == Some(9) => Some("9"),
            Some(_) => None,
        }
    }

    /// The paired limit and the single one that button 6 took off, in a sample that has nothing but that press.
    fn removal(&self) -> Option<(Option<usize>, bool)> {
        let plain = self.sample.buttons == 64 && self.same_mode() && !self.reads(&[10, 11]);
        if !plain || self.answers_1() || self.answers_side().is_some() {
            return None;
        }
        let paired = (0..4).find(|which| self.before.paired[*which].is_some() && self.session.paired[*which].is_none());
        Some((paired, self.before.limit.is_some() && self.session.limit.is_none()))
    }
}

impl Meter {
    pub fn new() -> Meter {
        Meter { before: None, since: Since::default(), setter: "", removed: 100, behind_second: false, parted: None }
    }

    /// The keys of one accepted sample.
    pub fn meet(&mut self, session: &Session, sample: Sample, met: &mut Vec<String>) {
        met.push(format!("version_{}", session.version));
        if let Some(before) = self.before.take() {
            let seen = Seen { before: &before, session, sample };
            self.note(&seen);
            let rows = [self.making(&seen), self.first_rows(&seen), self.second_rows(&seen), standing(&seen), lamp(&seen),
                self.button(&seen), reason(&seen), self.steps(&seen), modes(&seen)];
            met.extend(rows.concat().into_iter().map(|row| format!("pair_{row}")));
            self.go_on(&seen);
        } else if session.first.is_some() {
            self.since = Since::default();
        }
        self.before = Some(session.clone());
    }

    /// What this sample adds to the time since the first, before its beacon.
    fn note(&mut self, seen: &Seen) {
        let since = &mut self.since;
        since.samples += 1;
        since.missed |= seen.session.arisen.contains(&2);
        since.braked |= seen.before.cause == 0 && seen.session.cause != 0 && seen.pair().is_none();
        since.rearmed |= seen.before.cause != 0 && seen.session.cause == 0;
        since.taken_off |= seen.removal().is_some_and(|(_, single)| single);
        since.set_by_9 |= seen.sets() == Some("9");
        since.set_by_1 |= seen.sets() == Some("1");
    }

    /// Behind the sample.
    fn go_on(&mut self, seen: &Seen) {
        let session = seen.session;
        self.since.beacon |= seen.reads(&[1, 2, 3, 4, 5, 6, 7, 8, 9]);
        self.removed = match seen.removal() {
            Some((None, false)) | None => self.removed + 1,
            Some(_) => 0,
        };
        if let Some((_, travel)) = &mut self.parted {
            *travel += session.m;
        }
        if !seen.same_mode() && seen.before.first.is_some() {
            let travel = seen.before.first.unwrap().distance + session.m;
            self.parted = Some((if session.mode == BTS { "entering" } else { "leaving" }, travel));
        }
        if seen.first().is_some() {
            let stood = seen.before.limit.is_some() && seen.same_mode() && session.limit.is_some_and(|limit| limit.age > 0);
            self.since = Since {
                stood,
                lone: stood && self.setter == "10",
                paired_stood: session.limit_stands() && session.paired.iter().any(Option::is_some),
                far: seen.same_mode() && seen.before.first.is_some(),
                ..Since::default()
            };
        }
        if seen.reads(&[10, 11]) {
            self.behind_second = seen.pair().is_some();
            self.parted = None;
        }
        if let Some(setter) = seen.sets() {
            self.setter = setter;
        }
    }

    /// g8 to g11.
    fn making(&self, seen: &Seen) -> Vec<String> {
        let session = seen.session;
        let (most, tick) = (METRE * session.settings.distance as i64, session.settings.tick as i64);
        let mut rows = Vec::new();
        if let Some(first) = seen.pair() {
            let kind = pairs::kind(first.code, sample_code(seen));
            let equal = first.code == sample_code(seen) && seen.before.last_code != first.code;
            rows.push(format!("{}_{}", first.code, sample_code(seen)));
            rows.push(format!("speed_{}", session.settings.pairs[kind]));
            rows.extend(those(&[
                (first.distance == most, "at"), (first.distance < most && first.distance + tick >= most, "before"),
                (first.distance == 0, "here"), (session.settings.distance == 1, "metre_1"), (session.settings.distance == 50, "metre_50"),
                (equal && seen.before.last_code == 0, "equal_0"), (equal && seen.before.last_code == QUIET, "equal_12"),
                (equal && (1..=11).contains(&seen.before.last_code), "equal_beacon"), (self.since.far, "behind_far"),
                (self.since.beacon, "over_beacon"), (self.since.missed, "over_miss"), (self.since.braked, "over_brake"),
                (self.since.rearmed, "over_rearm"), (self.since.taken_off, "over_removal"), (self.since.samples > 60, "over_time"),
                (session.s == 100 * session.settings.pairs[kind] as i64 && seen.before.s > session.s, "in_s"),
                (session.arisen.contains(&5) && seen.before.cause == 0, "cause_5"),
            ]));
        }
        let far = seen.before.first.filter(|_| seen.same_mode() && seen.first().is_some()).map(|first| first.distance + session.m);
        let was_first = seen.before.first.is_some() && seen.same_mode();
        let parted = |way: &str| self.parted.is_some_and(|(how, travel)| how == way && travel + session.m <= most) && seen.first().is_some();
        let old = |version: u8| session.version == version && seen.before.limit.is_some() && seen.reads(&[10, 11]) && session.limit.is_some();
        rows.extend(those(&[
            (far.is_some_and(|far| far - tick <= most), "none_behind"), (far.is_some_and(|far| far - tick > most), "none_far"),
            (was_first && [10, 11].contains(&sample_code(seen)) && sample_code(seen) == seen.before.last_code, "held"),
            (self.behind_second && seen.first().is_some(), "third"), (parted("entering"), "parted_entering"),
            (parted("leaving"), "parted_leaving"), (old(1), "none_on_1"), (old(2), "none_on_2"),
        ]));
        rows
    }

    /// g12, and g15 to g19: the first's limit.
    fn first_rows(&self, seen: &Seen) -> Vec<String> {
        let (before, session, since) = (seen.before, seen.session, self.since);
        let stood = before.limit.filter(|_| seen.same_mode() && session.limit.is_some_and(|limit| limit.age > 0));
        let mut rows = those(&[
            (seen.first().is_some() && stood.is_none(), "first_new"), (seen.first().is_some() && stood.is_some(), "first_again"),
            (seen.first().is_some() && stood.is_some_and(|limit| limit.steps > 0), "first_again_steps"),
        ]);
        if seen.pair().is_some() && !seen.pressed(6) {
            let (dropped, kept) = (before.limit.is_some() && session.limit.is_none(), session.limit.is_some());
            let set_since = since.set_by_9 || since.set_by_1;
            rows.extend(those(&[
                (dropped && !since.stood, "dropped"), (dropped && since.paired_stood, "dropped_beside_paired"),
                (kept && since.stood && !set_since, "kept_stood"), (kept && since.stood && since.lone, "kept_lone"),
                (kept && !since.stood && since.set_by_9, "kept_9"), (kept && !since.stood && since.set_by_1, "kept_1"),
                (before.limit.is_none() && since.taken_off && !set_since, "taken_off"),
                (kept && since.taken_off && set_since, "taken_off_set"),
            ]));
        }
        rows
    }

    /// g14: the second's window.
    fn second_rows(&self, seen: &Seen) -> Vec<String> {
        let (before, session) = (seen.before, seen.session);
        let window = session.side_window.filter(|_| seen.pair().is_some());
        let over = before.side_window.filter(|open| window.is_some_and(|window| window.left == open.left - 1));
        let of_second = before.side_window.filter(|open| self.behind_second && open.beacon > 9 && seen.same_mode());
        let missed = of_second.is_some() && session.arisen.contains(&2);
        those(&[
            (over.is_some_and(|open| open.beacon > 9), "window_10"), (over.is_some_and(|open| open.beacon == 9), "window_9"),
            (window.is_some_and(|window| window.left == 30), "window_fresh"), (of_second.is_some() && seen.answers_side().is_some(), "answered"),
            (missed && of_second.is_some_and(|open| open.age == 29), "missed_fresh"),
            (missed && of_second.is_some_and(|open| open.age < 29), "missed_inherited"),
        ])
    }

    /// g23 and g24.
    fn button(&self, seen: &Seen) -> Vec<String> {
        let (before, session) = (seen.before, seen.session);
        let m = session.m;
        let stand: Vec<i64> = seen.before.paired_standing().iter().map(|(_, value, _)| *value).collect();
        let may_go = |value: i64| below(m, value);
        if session.version != 3 || stand.is_empty() || !seen.pressed(6) {
            return Vec::new();
        }
        let any_may = stand.iter().any(|value| may_go(*value));
        let mut rows = those(&[
            (any_may && seen.answers_1(), "press_main"), (any_may && seen.answers_side().is_some(), "press_side"),
        ]);
        let single = before.limit.map(|limit| before.limit_final(limit));
        let row_final = 100 * session.settings.rows[6].r#final as i64;
        let with_steps = before.limit.is_some_and(|limit| limit.steps > 0);
        let row_higher = |value: i64| before.limit.is_some_and(|limit| !before.limit_at_final(limit) && before.limit_value(limit) > value);
        match seen.removal() {
            Some((Some(which), false)) => {
                let value = session.paired_value(which);
                rows.extend(those(&[
                    (true, "off_paired"), (single.is_some_and(|single| may_go(single) && single > value), "off_paired_lower"),
                    (single == Some(value), "off_equal"), (with_steps && single > Some(value) && row_final <= value, "off_steps"),
                    (stand.iter().any(|other| may_go(*other) && *other > value), "off_lowest"),
                    (stand.iter().any(|other| *other < value), "off_higher"),
                    (single.is_some_and(|single| single < value), "off_single_may_not"), (self.removed <= 2, "off_again"),
                    (session.mode == BTS, "off_bts"),
                ]));
            }
            Some((None, true)) => {
                let single = single.unwrap();
                let over = stand.iter().copied().filter(|value| may_go(*value) && *value > single).min();
                rows.extend(those(&[
                    (over.is_some(), "off_single_lower"), (over.is_some_and(row_higher), "off_single_row_higher"),
                    (stand.iter().any(|value| *value < single), "off_single_higher"),
                ]));
            }
            Some((None, false)) => rows.push("off_none".into()),
            _ => {}
        }
        rows
    }

    /// g26 and g27: increase on a limit at its final that has room for a step.
    fn steps(&self, seen: &Seen) -> Vec<String> {
        let (before, session) = (seen.before, seen.session);
        let (Some(was), Some(is)) = (before.limit, session.limit) else { return Vec::new() };
        let hidden = session.version == 3 && seen.sample.buttons == 512 && was.steps == is.steps + 1;
        let room = session.limit_at_final(is) && before.limit_final(was) < 100 * session.t().min(160);
        let asked = seen.sample.buttons == 256 && room && session.main != crate::desk::Main::Stop && !seen.reads(&[10, 11]) && seen.same_mode();
        let (stepped, lost) = (asked && is.steps == was.steps + 1, asked && is.steps == was.steps);
        let new = session.version == 3;
        let beside = session.paired.iter().any(Option::is_some);
        those(&[
            (hidden, "hide"), (new && stepped && self.setter == "9", "step_9"), (new && stepped && self.setter == "1", "step_1"),
            (new && lost && self.setter == "10", "step_lost"), (new && lost && beside, "step_lost_beside"),
            (new && lost && self.since.stood && !self.since.lone, "step_lost_again"), (new && stepped && beside, "step_beside"),
            (new && stepped && self.behind_second && self.since.set_by_9, "step_second"),
            (session.version == 1 && stepped && self.setter == "10", "step_on_1"),
            (session.version == 2 && stepped && self.setter == "10", "step_on_2"),
        ])
    }
}

fn sample_code(seen: &Seen) -> u8 {
    seen.sample.beacon
}

/// g20 and g21.
fn standing(seen: &Seen) -> Vec<String> {
    let (before, session) = (seen.before, seen.session);
    let count = session.paired.iter().filter(|age| age.is_some()).count();
    let again = (0..4).find(|which| seen.same_mode() && before.paired[*which].is_some() && session.paired[*which] == Some(0));
    let kinds = again.map_or(0, |which| session.settings.pairs.iter().filter(|speed| **speed == PAIR_SPEEDS[which]).count());
    let mut rows = those(&[
        (again.is_some(), "again"), (kinds > 1, "again_kinds"), (count == 4 && session.limit.is_some(), "all_five"),
        (count > 0 && session.limit.is_none(), "alone"), (count > 0 && session.limit.is_some(), "beside_single"),
    ]);
    if count > 0 {
        rows.push(format!("stand_{count}"));
    }
    rows
}

/// g22: lamp 6 without a window that waits for it; a pulse more or less would turn it.
fn lamp(seen: &Seen) -> Vec<String> {
    let session = seen.session;
    let tick = session.settings.tick as i64;
    let waits = session.side_window.is_some() || session.main_window.is_some_and(|window| window.beacon == 1);
    let stand = session.paired_standing();
    let lit = !session.removable().is_empty();
    let mut rows = those(&[(!waits && !stand.is_empty() && lit, "lamp_lit"), (!waits && !stand.is_empty() && !lit, "lamp_dark")]);
    for (which, value, _) in stand {
        let goes = below(session.m, value);
        if goes && !below(session.m + tick, value) {
            rows.push(format!("may_go_{}", PAIR_SPEEDS[which]));
        } else if !goes && below(session.m - tick, value) {
            rows.push(format!("may_not_go_{}", PAIR_SPEEDS[which]));
        }
    }
    rows
}

/// g25, and the line in words.
fn reason(seen: &Seen) -> Vec<String> {
    let (before, session) = (seen.before, seen.session);
    let named = |session: &Session| if session.why().reason == why::LIMIT { Some(session.names_single()) } else { None };
    let paired_too = session.paired_standing().iter().any(|(_, value, _)| *value == session.s);
    let beside = session.paired.iter().any(Option::is_some);
    let (was, is) = (named(before), named(session));
    let other_paired = was == Some(false) && is == Some(false) && before.s != session.s;
    those(&[
        (is == Some(true) && paired_too, "why_equal"), (is == Some(true) && beside && !paired_too, "why_single"),
        (is == Some(false) && session.limit.is_some(), "why_paired"), (is == Some(false) && session.limit.is_none(), "why_paired_alone"),
        (is == Some(false) && session.why().age == 0, "why_age_0"), (is == Some(false) && session.why().age > 0, "why_age"),
        (was == Some(true) && is == Some(false), "why_words_paired"), (was == Some(false) && is == Some(true), "why_words_single"),
        (other_paired, "why_words_other"),
    ])
}

/// g28.
fn modes(seen: &Seen) -> Vec<String> {
    let (before, session) = (seen.before, seen.session);
    let stood = !seen.same_mode() && before.paired.iter().any(Option::is_some);
    let code = [10, 11].contains(&seen.sample.beacon) && seen.sample.beacon != before.last_code;
    those(&[
        (seen.pair().is_some() && session.mode == BTS, "bts"), (stood && session.mode == BTS, "drop_entering"),
        (stood && session.mode != BTS, "drop_leaving"),
        (session.version == 3 && session.mode == BTS && code && !session.settings.function(3), "bts_unread"),
    ])
}
