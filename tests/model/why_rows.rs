//! What a ride meets of the reason and of the brake's age, 02 f): each reason and each tie, how each named age came about, the
//! brake's age where something happens, and the lines in words.

use crate::card::{ANNOUNCEMENT, START};
use crate::desk::{Crossing, Main, Sample, Session, BTS};
use crate::why::{Named, Standing, ALONGSIDE, CROSSING, LIMIT, MAIN};

/// The session behind the accepted sample before.
pub struct Meter {
    before: Option<Session>,
}

/// An accepted sample: the session before it and that behind it, the sample, what is named.
struct Seen<'a> {
    before: &'a Session,
    session: &'a Session,
    sample: Sample,
    why: Standing,
}

impl Meter {
    pub fn new() -> Meter {
        Meter { before: None }
    }

    /// The keys of one accepted sample.
    pub fn meet(&mut self, session: &Session, sample: Sample, met: &mut Vec<String>) {
        let why = session.why();
        met.push(format!("why_{}", why.reason));
        for later in session.standing() {
            if later.reason > why.reason && later.value == session.s {
                met.push(format!("why_{}_before_{}", why.reason, later.reason));
            }
        }
        match &self.before {
            None => meet_first(session, why, met),
            Some(before) => {
                let seen = Seen { before, session, sample, why };
                let rows = [seen.main(), seen.clear(), seen.alongside(), seen.crossing(), seen.limit(), seen.brake(), seen.words()];
                met.extend(rows.concat().into_iter().map(|row| format!("why_{row}")));
            }
        }
        self.before = Some(session.clone());
    }
}

/// "start 1 in the first sample" (f3); its line in words is always there.
fn meet_first(session: &Session, why: Standing, met: &mut Vec<String>) {
    if why.reason == MAIN && session.main == Main::Row(START) && why.age == 1 {
        met.push("why_start_first".into());
    }
    met.push("why_words_line".into());
}

/// The names of those that are so.
fn those(rows: &[(bool, &'static str)]) -> Vec<&'static str> {
    rows.iter().filter(|(is_so, _)| *is_so).map(|(_, name)| *name).collect()
}

impl Seen<'_> {
    /// Whether this sample's beacon is one of these, and is read.
    fn reads(&self, codes: &[u8]) -> bool {
        let side = [4, 9, 10, 11].contains(&self.sample.beacon);
        let heard = self.session.mode != BTS || (side && self.session.settings.function(3));
        heard && codes.contains(&self.sample.beacon) && self.sample.beacon != self.before.last_code
    }

    /// Whether a main window of beacon 1 is closed, and the age that its reading has in this sample.
    fn closed_1(&self) -> Option<i64> {
        let window = self.before.main_window.filter(|window| window.beacon == 1)?;
        let still_open = self.session.main_window.is_some_and(|open| open.beacon == 1 && open.age == window.age + 1);
        if still_open || self.session.mode != self.before.mode { None } else { Some(window.age + 1) }
    }

    /// "a 1 answered, missed or displaced, stop and zone have their reading's" (f3). A displaced 1 is seen where another 1
    /// displaces it.
    fn main(&self) -> Vec<&'static str> {
        let session = self.session;
        if self.why.reason != MAIN {
            return Vec::new();
        }
        let left_bts = self.before.mode == BTS && session.mode != BTS;
        let by_1 = matches!(session.main, Main::Row(_)) && self.closed_1() == Some(session.main_age);
        let missed = session.arisen.contains(&1);
        let displaced = self.reads(&[1]);
        those(&[
            (left_bts && session.main == Main::Row(START) && self.why.age == 0, "start_left"),
            (by_1 && !missed && !displaced, "main_answered_1"),
            (by_1 && missed && session.main == Main::Row(ANNOUNCEMENT) && self.why.age == 30, "main_missed_1"),
            (by_1 && !missed && displaced && session.main == Main::Row(ANNOUNCEMENT), "main_displaced_1"),
            (session.main == Main::Stop && !session.increased, "stop"),
            (session.main == Main::Stop && session.increased, "stop_increased"),
            (session.main == Main::Zone, "zone"),
        ])
    }

    /// "4 neither there nor under clear" (f2).
    fn clear(&self) -> Vec<&'static str> {
        let clear = self.session.main == Main::Clear;
        those(&[(clear && self.why.reason == 1, "clear_1"), (clear && self.why.reason == 2, "clear_2")])
    }

    /// "Alongside has its own age, 0 in the sample of the taking over" (f4).
    fn alongside(&self) -> Vec<&'static str> {
        let named = self.why.reason == ALONGSIDE;
        let is_1s = self.closed_1().is_some_and(|age| age == self.session.main_age);
        those(&[
            (named && self.why.age == 0, "alongside_0"),
            (named && self.why.age == 0 && is_1s, "alongside_by_1"),
            (named && self.why.age > 0, "alongside_later"),
            (named && self.why.age == 199, "alongside_199"),
            (named && self.why.age > 0 && self.session.main_age == 0, "alongside_not_anew"),
        ])
    }

    /// "the reading's age, a missed 9 has 30 ... an answered 3 the 3's (R36) ... A repeat keeps it, a turn is 0." (f5)
    fn crossing(&self) -> Vec<&'static str> {
        let (Some(crossing), CROSSING) = (self.session.crossing, self.why.reason) else { return Vec::new() };
        let stood = self.before.crossing.filter(|stood| stood.protected == crossing.protected && self.session.mode == self.before.mode);
        let side_9 = self.before.side_window.filter(|window| window.beacon == 9).map(|window| window.age + 1);
        let by_9 = stood.is_none() && !crossing.protected && side_9 == Some(crossing.age);
        let missed = self.session.arisen.contains(&2);
        let offered = self.before.offer.map(|offer| offer.age + 1);
        let by_3 = crossing.protected && self.session.offer.is_none() && offered == Some(crossing.age);
        let repeated = stood.is_some_and(|stood| self.is_repeat(stood, crossing));
        those(&[
            (crossing.protected, "crossing_protected"),
            (crossing.protected && self.reads(&[4]) && crossing.age == 0, "crossing_by_4"),
            (!crossing.protected && crossing.age == 0, "crossing_turned"),
            (by_9 && missed && crossing.age == 30, "crossing_missed_9"),
            (by_9 && !missed, "crossing_answered_9"),
            (stood.is_none() && !crossing.protected && self.closed_1() == Some(crossing.age), "crossing_answered_1"),
            (stood.is_none() && by_3, "crossing_answered_3"),
            (repeated && crossing.protected, "crossing_repeat_protected"),
            (repeated && !crossing.protected, "crossing_repeat_unprotected"),
            (self.session.mode == BTS, "crossing_bts"),
        ])
    }

    /// Of the same kind, with another distance than it had: its age has gone on.
    fn is_repeat(&self, stood: Crossing, crossing: Crossing) -> bool {
        crossing.age == stood.age + 1 && crossing.distance != stood.distance + self.session.m
    }

    /// "repeat, steps, an answered 10 do not touch it" (f6). Those of a paired limit are pairs_rows.rs's.
    fn limit(&self) -> Vec<&'static str> {
        let single = self.session.limit.filter(|_| self.session.names_single());
        let (Some(limit), LIMIT) = (single, self.why.reason) else { return Vec::new() };
        let same_mode = self.session.mode == self.before.mode;
        let stood = self.before.limit.filter(|stood| limit.age == stood.age + 1 && same_mode);
        let closed = self.before.side_window.filter(|_| self.session.side_window.is_none() && !self.session.arisen.contains(&2));
        let answered = |beacons: &[u8]| closed.is_some_and(|window| beacons.contains(&window.beacon));
        let steps_before = self.before.limit.map_or(0, |stood| stood.steps);
        those(&[
            (limit.age == 0, "limit_0"),
            (stood.is_some() && self.reads(&[10, 11]), "limit_repeat"),
            (stood.is_some() && self.reads(&[10, 11]) && steps_before > 0, "limit_repeat_steps"),
            (limit.steps > 0, "limit_steps"),
            (stood.is_some() && limit.steps > steps_before, "limit_step_more"),
            (stood.is_some() && limit.steps < steps_before, "limit_step_less"),
            (stood.is_some() && answered(&[10, 11]), "limit_answered_10"),
            (stood.is_none() && answered(&[9]) && limit.age > 0, "limit_answered_9"),
            (stood.is_none() && self.closed_1() == Some(limit.age), "limit_answered_1"),
            (self.session.mode == BTS, "limit_bts"),
        ])
    }

    /// "samples since it came on, 0 in that sample; later causes do not restart it. Unbraked, the rearm's sample included: 0, 0."
    /// (f7)
    fn brake(&self) -> Vec<&'static str> {
        let (before, session) = (self.before, self.session);
        let (was, is) = (before.cause != 0, session.cause != 0);
        let on = was && is && session.brake_age == before.brake_age + 1;
        let changes = session.mode != before.mode;
        let fresh = session.rearm && session.standstill && !session.arisen.is_empty();
        those(&[
            (is && session.brake_age == 0, "since_0"),
            (is && session.brake_age == 1, "since_1"),
            (is && session.brake_age > 1, "since_more"),
            (on && session.arisen.iter().any(|cause| *cause < session.cause), "since_lower_cause"),
            (on && session.arisen.iter().any(|cause| *cause >= session.cause), "since_later_cause"),
            (on && changes && session.mode == BTS, "since_entering"),
            (on && changes && session.mode != BTS, "since_leaving"),
            (on && fresh, "since_fresh_cause"),
            (on && session.rearm && !session.standstill, "since_early_rearm"),
            (was && !is && session.brake_age == 0, "since_rearm"),
            (was && !is && changes, "since_rearm_mode"),
        ])
    }

    /// A line where the name or the cause changed.
    fn words(&self) -> Vec<&'static str> {
        let (then, now) = (Named::of(self.before), Named::of(self.session));
        let renamed = then.name != now.name;
        let same_number = self.before.why().reason == self.why.reason;
        let line = then != now;
        those(&[
            (line, "words_line"),
            (!line, "words_no_line"),
            (!line && self.why.reason >= MAIN && self.why.age == 0, "words_no_line_anew"),
            (!line && self.before.s != self.session.s, "words_no_line_s"),
            (then.cause != 0 && now.cause == 0, "words_off"),
            (renamed && same_number && self.why.reason == MAIN, "words_same_4"),
            (renamed && same_number && self.why.reason == CROSSING, "words_same_6"),
            (!renamed && then.cause == 0 && now.cause != 0, "words_cause_alone"),
            (renamed && then.cause == now.cause && now.cause != 0, "words_name_alone_braked"),
            (renamed && then.cause != now.cause, "words_both"),
            (line && self.session.s % 100 != 0, "words_hundredths"),
        ])
    }
}
