//! What a ride meets of the quiet pickup, 02 c): code 12 in both modes and beside what else a sample can hold, and what
//! comes behind it.

use crate::desk::{Answer, Reminder, Sample, Session, BTS, CONV, QUIET, QUIET_CAUSE, STANDING};

/// What has gone before in a ride.
pub struct Meter {
    mode: u8,
    cause: u8,
    code: u8,
    /// Whether the main and the side window were open.
    open: (bool, bool),
    /// The code before the last run of 12, and whether the mode changed in that run.
    before: u8,
    changed: bool,
    /// The accepted samples since the last 12, that one included.
    since: Option<i64>,
}

impl Meter {
    pub fn new() -> Meter {
        Meter { mode: CONV, cause: 0, code: 0, open: (false, false), before: 0, changed: false, since: None }
    }

    /// The keys of one sample: the session is that behind it, which a refused one has left as it was.
    pub fn meet(&mut self, session: &Session, sample: Sample, result: Result<Answer, u8>, met: &mut Vec<String>) {
        let answer = match result {
            Ok(answer) => answer,
            Err(number) => return meet_refused(sample, number, met),
        };
        if sample.buttons == 2047 {
            met.push("buttons_2047".into());
        }
        if sample.beacon == QUIET {
            if self.code != QUIET {
                self.before = self.code;
                self.changed = false;
            }
            self.changed |= sample.mode != self.mode;
            self.since = Some(0);
            self.meet_quiet(session, answer, met);
            self.meet_open(session, met);
        } else if self.code == QUIET {
            self.changed |= sample.mode != self.mode;
            self.meet_behind(session, answer, met);
        }
        self.since = self.since.map(|samples| samples + 1);
        if session.stood == STANDING && self.since.is_some_and(|samples| samples <= STANDING) {
            met.push("quiet_ten".into());
        }
        self.mode = session.mode;
        self.cause = answer.cause;
        self.code = sample.beacon;
        self.open = (session.main_window.is_some(), session.side_window.is_some());
    }

    /// A sample with 12: mode, cause, rearm.
    fn meet_quiet(&self, session: &Session, answer: Answer, met: &mut Vec<String>) {
        let mode = name(session.mode);
        met.push(format!("quiet_{mode}"));
        if self.code == QUIET {
            met.push(format!("quiet_again_{mode}"));
        }
        if session.mode == BTS {
            met.push(format!("quiet_function_3_{}", if session.settings.function(3) { "on" } else { "off" }));
        } else if self.cause != 0 {
            met.push("quiet_braked".into());
        } else if answer.cause != QUIET_CAUSE {
            met.push(format!("quiet_beside_{}", answer.cause));
        }
        let changes = session.mode != self.mode;
        match (changes, session.mode, self.cause, answer.cause) {
            (true, BTS, 0, 0) => met.push("quiet_enter".into()),
            (true, CONV, 0, QUIET_CAUSE) => met.push("quiet_leave".into()),
            _ => {}
        }
        if answer.lamps >> 10 == 3 {
            met.push("quiet_lamps_3072".into());
        }
        if self.cause != 0 && session.rearm && session.standstill {
            match (&session.arisen[..], changes) {
                ([], false) => met.push("quiet_rearm_bts".into()),
                ([], true) => met.push("quiet_rearm_enter".into()),
                ([QUIET_CAUSE], false) => met.push("quiet_rearm_conv".into()),
                ([QUIET_CAUSE], true) => met.push("quiet_rearm_leave".into()),
                _ => {}
            }
        }
    }

    /// A sample with 12: what is open or armed behind it, and what is answered in it.
    fn meet_open(&self, session: &Session, met: &mut Vec<String>) {
        let (main, side) = (session.main_window, session.side_window);
        let stands = [
            ("main_window", main.is_some()), ("zone_window", main.is_some_and(|window| window.zone)),
            ("side_window", side.is_some()), ("armed", session.armed.is_some()), ("offer", session.offer.is_some()),
            ("reminder", matches!(session.reminder, Reminder::Lit { .. })), ("crossing", session.crossing.is_some()),
            ("limit", session.limit.is_some()), ("alongside", session.alongside.is_some()),
        ];
        met.extend(stands.iter().filter(|(_, stands)| *stands).map(|(what, _)| format!("quiet_{what}")));
        let same_mode = session.mode == self.mode;
        if same_mode && self.open.0 && main.is_none() && !session.arisen.contains(&1) {
            met.push("quiet_answers_main".into());
        }
        if same_mode && self.open.1 && side.is_none() && !session.arisen.contains(&2) {
            met.push("quiet_answers_side".into());
        }
    }

    /// The sample behind a run of 12.
    fn meet_behind(&self, session: &Session, answer: Answer, met: &mut Vec<String>) {
        met.push(format!("quiet_over_{}", name(session.mode)));
        if self.cause != 0 && answer.cause == 0 {
            met.push("quiet_rearm_behind".into());
        }
        let code = session.last_code;
        let by_function_3 = [4, 9, 10, 11].contains(&code);
        let read = session.mode == CONV || (session.settings.function(3) && by_function_3);
        match (code, self.before) {
            (0, _) => {}
            (_, 0) => met.push("quiet_then_beacon".into()),
            (_, before) if code != before => met.push("quiet_between_others".into()),
            _ if !read => met.push("quiet_between_equal_unread".into()),
            _ => {
                let what = match (session.mode, by_function_3) {
                    (BTS, _) => "bts",
                    (_, true) => "side",
                    _ => "main",
                };
                met.push(format!("quiet_between_equal_{what}"));
                if self.changed {
                    met.push("quiet_between_equal_mode".into());
                }
            }
        }
    }
}

/// Both sides of refusal 9, and 12 where another refusal is the first.
fn meet_refused(sample: Sample, number: u8, met: &mut Vec<String>) {
    match (sample.beacon, sample.buttons, number) {
        (13, _, 9) => met.push("beacon_13".into()),
        (0..=QUIET, 2048, 9) => met.push("buttons_2048".into()),
        (QUIET, _, 10 | 11) => met.push(format!("quiet_but_{number}")),
        _ => {}
    }
}

fn name(mode: u8) -> &'static str {
    if mode == BTS { "bts" } else { "conv" }
}
