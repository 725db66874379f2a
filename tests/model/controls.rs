//! Stop, override, reminder, crossing and limit: document 01, "Controls".

use crate::card::{LIMIT, UNPROTECTED};
use crate::desk::{Crossing, Limit, Main, Reminder, Session, BTS, METRE};

impl Session {
    /// "8 sets stop: 40 km/h"; increase "makes it min(T, 100)".
    pub fn stop_value(&self) -> i64 {
        if self.increased { 100 * self.t().min(100) } else { 4000 }
    }

    /// "Stop: beacon 8 without armed override is cause 4." Override "is used up by beacon 8"; "a beacon 8 ends" the
    /// stop alongside "at once". Its reminder waits when it is "passed under override" with function 2.
    pub fn read_stop(&mut self) {
        let passed = self.armed.take().is_some();
        if !passed {
            self.arises(4);
        }
        self.set_main(Main::Stop, 0, 0);
        self.alongside = None;
        if passed && self.settings.function(2) {
            self.reminder = Reminder::Waits;
        }
    }

    /// "Override arms for ages 0..99, each press anew". "A press while lit doesn't arm": at ages 1..49 it answers the
    /// reminder, at age 0 it does nothing (R 29). In BTS "Override is dead."
    pub fn press_override(&mut self) {
        match self.reminder {
            Reminder::Lit { age: 0, .. } => {}
            Reminder::Lit { second: false, .. } => self.reminder = Reminder::Pressed { samples: 0, distance: 0 },
            Reminder::Lit { second: true, .. } => self.reminder = Reminder::No,
            Reminder::No | Reminder::Waits | Reminder::Pressed { .. } => {
                if self.mode != BTS {
                    self.armed = Some(0);
                }
            }
        }
    }

    /// "Reminder (function 2): the stop of a beacon 8 passed under override, still main after 200 m, lights override;
    /// ... miss at 50 is cause 3 and ends it. Once more after X samples past the press at 5 km/h or more (X/2 rounded
    /// down if by then increased) or Y metres." Any new main control has ended it already.
    pub fn light_or_miss_reminder(&mut self) {
        match self.reminder {
            Reminder::Waits if self.main_distance >= 200 * METRE => {
                self.reminder = Reminder::Lit { second: false, age: 0 };
            }
            Reminder::Lit { age, .. } if age >= 50 => {
                self.reminder = Reminder::No;
                self.arises(3);
            }
            Reminder::Pressed { samples, distance } => {
                let x = self.settings.x as i64;
                let wanted = if self.increased { x / 2 } else { x };
                if samples >= wanted || distance >= self.settings.y as i64 * METRE {
                    self.reminder = Reminder::Lit { second: true, age: 0 };
                }
            }
            _ => {}
        }
    }

    /// Lamp 8, "increase for stop (ages 0..99, till used)".
    pub fn stop_offers_increase(&self) -> bool {
        self.main == Main::Stop && self.main_age <= 99 && !self.increased
    }

    /// "Increase, once, at ages 1..99 of the control (house), while main, makes it min(T, 100)." "increase (if stop
    /// has no use for it) adds" a step to the limit (R 28).
    pub fn press_increase(&mut self) {
        if self.stop_offers_increase() && self.main_age >= 1 {
            self.increased = true;
        } else {
            self.add_step();
        }
    }

    /// "Unprotected takes over protected"; "a repeat of the same restarts only the distance", with the repeating
    /// reading's (R 33). "Unprotected is row 5, its icon at once."
    pub fn set_unprotected(&mut self, age: i64, distance: i64) {
        match &mut self.crossing {
            Some(crossing) if !crossing.protected => crossing.distance = distance,
            _ => self.crossing = Some(Crossing { protected: false, age, distance, shown: true }),
        }
    }

    /// "protected never takes over unprotected; a repeat of the same restarts only the distance (a shown icon stays;
    /// a repeat by 3 shows it)".
    fn set_protected(&mut self, age: i64, distance: i64, shown: bool) {
        match &mut self.crossing {
            None => self.crossing = Some(Crossing { protected: true, age, distance, shown }),
            Some(crossing) if crossing.protected => {
                crossing.distance = distance;
                crossing.shown = crossing.shown || shown;
            }
            Some(_) => {}
        }
    }

    /// "With function 0, beacon 4 ... sets protected"; "Its icon shows 35 m after beacon 4".
    pub fn read_4(&mut self) {
        if self.settings.function(0) {
            self.set_protected(0, 0, false);
        }
    }

    /// "beacon 3 answered by 5 at ages 1..29 ... sets protected", its icon "at once after 3". Used up by its press,
    /// also on a standing unprotected crossing (R 34, 36).
    pub fn take_offer(&mut self) {
        if let Some(offer) = self.offer {
            if offer.age >= 1 {
                self.offer = None;
                self.set_protected(offer.age, offer.distance, true);
            }
        }
    }

    /// Protected is "turning unprotected at age 0 in the speed step when 9m < 100,000, distance kept", before S is
    /// taken (R 32).
    pub fn turn_protected(&mut self) {
        let slow = 9 * self.m < 100_000;
        if let Some(crossing) = &mut self.crossing {
            if crossing.protected && slow {
                crossing.protected = false;
                crossing.age = 0;
                crossing.shown = true;
            }
        }
    }

    /// Unprotected is row 5, protected "min(T, 155)".
    pub fn crossing_value(&self, crossing: Crossing) -> i64 {
        if crossing.protected {
            100 * self.t().min(155)
        } else {
            self.settings.rows[UNPROTECTED].at(crossing.age)
        }
    }

    /// "Limit: row 6. A repeat sets steps to 0 and keeps its age." Set by an answered 1 or 9, or by a 10 or 11. "Set since by an
    /// answered 9 (or 1, till n) it stays" (g16): it is the first's own no more.
    pub fn set_limit(&mut self, age: i64, answered: bool) {
        match &mut self.limit {
            Some(limit) => {
                limit.steps = 0;
                limit.answered = answered;
            }
            None => self.limit = Some(Limit { age, steps: 0, answered }),
        }
        if let (Some(first), true) = (&mut self.first, answered) {
            first.own = false;
        }
    }

    /// Steps go "up to min(T, 160)".
    fn step_top(&self) -> i64 {
        100 * self.t().min(160)
    }

    /// "its final value, steps included": with any step no more than min(T, 160), with none the row's final (R 37).
    pub fn limit_final(&self, limit: Limit) -> i64 {
        let row_final = 100 * self.settings.rows[LIMIT].r#final as i64;
        if limit.steps == 0 {
            row_final
        } else {
            (row_final + 2000 * limit.steps).min(self.step_top())
        }
    }

    /// "At its final value" is the row's value at its age (R 38).
    pub fn limit_at_final(&self, limit: Limit) -> bool {
        let row = self.settings.rows[LIMIT];
        row.at(limit.age) == 100 * row.r#final as i64
    }

    /// While the row is above its final, the row; at its final, the final with its steps (R 37).
    pub fn limit_value(&self, limit: Limit) -> i64 {
        if self.limit_at_final(limit) {
            self.limit_final(limit)
        } else {
            self.settings.rows[LIMIT].at(limit.age)
        }
    }

    /// "Steps of 20 km/h work only for limits last set by beacons 1 and 9" (02 g): "Increase steps the limit if the version is not 3
    /// or an answered 1 or 9 last set it ... Else the press is lost" (g26).
    fn may_step(&self, limit: Limit) -> bool {
        self.version != 3 || limit.answered
    }

    /// "At its final value, increase ... adds a 20 km/h step, up to min(T, 160); at or over that a press adds none".
    fn add_step(&mut self) {
        if let Some(limit) = self.limit {
            if self.may_step(limit) && self.limit_at_final(limit) && self.limit_final(limit) < self.step_top() {
                self.limit = Some(Limit { steps: limit.steps + 1, ..limit });
            }
        }
    }

    /// "hide takes one off".
    pub fn hide_step(&mut self) {
        if let Some(limit) = &mut self.limit {
            limit.steps = (limit.steps - 1).max(0);
        }
    }
}
