//! What a replay that runs meets: its samples, the refused one, the call before it, and the session in which it begins.

use crate::desk::{Main, Reminder, Session, BTS, CODE_TOP, QUIET, STANDING};
use crate::replay::{due, End, Replayed};
use crate::replay_rows::Call;

impl<'a> Call<'a> {
    /// The samples that are looked at, each beside the ends of its fields.
    pub fn meet_samples(&self, met: &mut Vec<String>) {
        let mut session = self.start.session.clone();
        for sample in due(self.samples, self.place, self.quota) {
            let mode = session.mode;
            let (m, tick) = (sample.pulses as i64 * session.settings.tick as i64, session.settings.tick as i64);
            let changes = [1, 2].contains(&sample.mode) && sample.mode != mode && !session.stands_in(sample);
            let result = session.sample(*sample);
            let mut rows = Vec::new();
            match result {
                Ok(_) if sample.beacon == QUIET => rows.push("beacon 12, runs"),
                Ok(_) if sample.buttons == 2047 => rows.push("buttons 2047, run"),
                Ok(_) if m == 100_000 => rows.push("m 100,000, runs"),
                Ok(_) if sample.mode != mode => rows.push("mode changed at standstill"),
                Err(9) if sample.beacon == CODE_TOP + 1 => rows.push("beacon 13, 9"),
                Err(9) if sample.buttons == 2048 => rows.push("buttons 2048, 9"),
                Err(9) if sample.mode == 0 => rows.push("mode 0, 9"),
                Err(9) if sample.mode == 3 => rows.push("mode 3, 9"),
                Err(10) if m - tick <= 100_000 => rows.push("one pulse more, 10"),
                Err(11) => rows.push(if sample.pulses > 0 { "11 with pulses" } else { "11 without pulses" }),
                _ => {}
            }
            match result {
                Err(9) if m > 100_000 => rows.push("9, 10 too"),
                Err(9) if changes => rows.push("9, 11 too"),
                Err(10) if changes => rows.push("10, 11 too"),
                _ => {}
            }
            met.extend(rows.into_iter().map(String::from));
            if result.is_err() {
                return;
            }
        }
    }

    /// Where a bad sample stands: "A bad sample just behind the quota is not looked at." (d5) Nor is one before the place.
    pub fn meet_spots(&self, met: &mut Vec<String>) {
        let due = due(self.samples, self.place, self.quota).len() as u64;
        let ran = self.gives.ran;
        if let End::RefusedAt(number, _) = self.gives.end {
            met.push(match ran {
                0 if due == 1 => "refused, the only one due".into(),
                0 => format!("{number} first due"),
                _ if ran + 1 == due => format!("{number} last due"),
                _ => format!("{number} in the middle"),
            });
        }
        let refusal = |session: &Session, at: u64| session.clone().sample(*self.samples.get(at as usize)?).err();
        if self.gives.end == End::Done && ran == self.quota && self.place < self.samples.len() as u64 {
            if let Some(number) = refusal(&self.gives.handed.session, self.place + ran) {
                met.push(if ran == 0 { "a bad sample, quota 0".into() } else { format!("{number} just behind the quota") });
            }
        }
        if self.place > 0 && ran > 0 {
            if let Some(number) = refusal(&self.start.session, self.place - 1) {
                met.push(format!("{number} just before the place"));
            }
        }
    }

    /// From the session that the call before gave, refused or not.
    pub fn meet_behind(&self, before: u64, last: &Replayed, met: &mut Vec<String>) {
        let (place, runs) = (self.place, self.gives.ran > 0);
        if let End::RefusedAt(_, position) = last.end {
            return met.extend(match place {
                _ if self.quota == 0 => Some("behind a refusal, quota 0"),
                _ if place == position => Some("behind a refusal, the same again"),
                _ if place > position && runs => Some("behind a refusal, past it"),
                _ if place < position && runs => Some("behind a refusal, back"),
                _ => None,
            }.map(String::from));
        }
        let ended = before.saturating_add(last.ran);
        if runs {
            met.push(match place {
                _ if place < ended => "a jump back",
                _ if place > ended => "a jump forward",
                _ if last.ran == 0 => "on, behind one that ran none",
                _ => "on from where the last ended",
            }.into());
        }
    }

    /// The session in which a later call begins, and its first sample.
    pub fn meet_start(&self, met: &mut Vec<String>) {
        let session = &self.start.session;
        let Some(first) = due(self.samples, self.place, self.quota).first() else { return };
        let mut rows = Vec::new();
        let mut row = |stands: bool, name: &'static str| rows.extend(if stands { Some(name.to_string()) } else { None });
        let (main, side) = (session.main_window, session.side_window);
        row(main.is_some_and(|window| !window.zone), "begins with a main window");
        row(main.is_some_and(|window| window.zone), "begins with the zone's window");
        row(side.is_some(), "begins with a side window");
        row(main.iter().chain(side.iter()).any(|window| window.left == 1), "begins where one is missed");
        row(session.offer.is_some(), "begins with beacon 3's option");
        row(session.cause != 0, "begins braked");
        row(session.main == Main::Stop, "begins with stop");
        row(session.alongside.is_some(), "begins with stop alongside");
        row(session.mode == BTS, "begins in BTS");
        row(session.armed.is_some(), "begins with override armed");
        row(session.reminder != Reminder::No, "begins with a reminder");
        row(session.crossing.is_some(), "begins with a crossing");
        row(session.limit.is_some(), "begins with a limit");
        row(session.limit.is_some_and(|limit| limit.steps > 0), "begins with steps");
        row(!session.paired_standing().is_empty(), "begins with a paired limit");
        row(session.first.is_some(), "begins with the first of a pair");
        row(session.stood == 0, "begins behind pulses");
        row((1..STANDING).contains(&session.stood), "begins at 1 to 9 without pulses");
        row(session.quiet(), "begins behind a 12");
        let beacons = (1..QUIET).contains(&first.beacon) && (1..QUIET).contains(&session.last_code);
        row(beacons && first.beacon == session.last_code, "begins with the last beacon again");
        row(beacons && first.beacon != session.last_code, "begins with another beacon than the last");
        met.extend(rows);
    }
}
