//! What a ride meets of standstill, 02 b): rearm, its lamp and the mode change on both sides of ten.

use crate::desk::{Answer, Sample, Session, BTS, CONV, STANDING};

/// What has gone before in a ride.
pub struct Meter {
    mode: u8,
    cause: u8,
    moved: bool,
    /// The accepted samples since the last mode change, that one included.
    since_change: Option<i64>,
    /// The travels of the accepted samples, the last ten of them.
    travels: Vec<i64>,
}

impl Meter {
    pub fn new() -> Meter {
        Meter { mode: CONV, cause: 0, moved: false, since_change: None, travels: Vec::new() }
    }

    /// The keys of one sample: the session is that behind it, which a refused one has left as it was.
    pub fn meet(&mut self, session: &Session, sample: Sample, result: Result<Answer, u8>, met: &mut Vec<String>) {
        let count = if result.is_ok() { session.stood } else { session.stood_with(&sample) };
        if sample.mode == CONV + BTS - self.mode {
            match result {
                Ok(_) | Err(11) => self.meet_mode(count, sample, met),
                Err(number) if count < STANDING => met.push(format!("mode_but_{number}")),
                Err(_) => {}
            }
        }
        let Ok(answer) = result else { return };
        self.meet_lamp(count, sample, answer, met);
        if self.cause != 0 && session.rearm {
            self.meet_rearm(count, session, met);
        }
        if sample.mode != self.mode {
            self.since_change = Some(0);
        }
        self.since_change = self.since_change.map(|samples| samples + 1);
        self.mode = sample.mode;
        self.cause = answer.cause;
        self.moved |= sample.pulses != 0;
        if self.travels.len() == 10 {
            self.travels.remove(0);
        }
        self.travels.push(session.m);
    }

    /// Pulses among the last samples, none of them at more than 5 km/h.
    fn crawls(&self) -> bool {
        self.travels.iter().any(|m| *m > 0) && self.travels.iter().all(|m| 9 * *m <= 12_500)
    }

    /// A mode change asked for.
    fn meet_mode(&self, count: i64, sample: Sample, met: &mut Vec<String>) {
        let way = match (sample.mode, count) {
            (BTS, 9 | 10) => "enter",
            (CONV, 9 | 10) => "leave",
            _ => "mode",
        };
        met.push(format!("{way}_{}", side(count)));
        if count == 0 {
            return;
        }
        if !self.moved {
            met.push("mode_never_moved".into());
        }
        if self.travels.is_empty() {
            met.push("mode_first".into());
        }
        if self.since_change == Some(1) {
            met.push("mode_again".into());
        }
        if self.crawls() && count < STANDING {
            met.push("mode_crawling".into());
        }
    }

    /// Lamp 10 of a braked desk: around ten, and in the sample in which the brake comes on.
    fn meet_lamp(&self, count: i64, sample: Sample, answer: Answer, met: &mut Vec<String>) {
        if answer.cause == 0 {
            return;
        }
        let lit = if answer.lamps >> 10 & 1 == 1 { "lit" } else { "dark" };
        if count == STANDING - 1 || count == STANDING {
            met.push(format!("lamp_10_{lit}_{count}"));
        }
        if self.cause == 0 && sample.pulses == 0 {
            met.push(format!("lamp_10_{lit}_fresh"));
        }
    }

    /// Rearm pressed on a desk that was braked before.
    fn meet_rearm(&self, count: i64, session: &Session, met: &mut Vec<String>) {
        if !session.arisen.is_empty() {
            if count >= STANDING {
                met.push("rearm_fresh_cause".into());
            }
            return;
        }
        met.push(format!("rearm_{}", side(count)));
        if count == 0 {
            return;
        }
        if session.mode == BTS {
            met.push(format!("rearm_bts_{}", if count < STANDING { "early" } else { "works" }));
        }
        if !self.moved {
            met.push("rearm_never_moved".into());
        }
        if self.crawls() && count < STANDING {
            met.push("rearm_crawling".into());
        }
        if count >= STANDING && self.since_change.is_some_and(|samples| samples < STANDING) {
            met.push("rearm_after_mode".into());
        }
    }
}

/// A count's place beside ten; 0 is a sample with pulses.
fn side(count: i64) -> &'static str {
    match count {
        0 => "moving",
        1..=8 => "under_9",
        9 => "9",
        10 => "10",
        _ => "over_10",
    }
}
