//! The kinds of rides: what the track and the mode do, and the pace against S.

use crate::damage;
use crate::desk::{Main, Reminder, Sample, BTS, CONV, METRE, QUIET, STANDING};
use crate::steer::{Driver, Fails, Pace};

/// What a long ride is after for a while.
#[derive(Clone, Copy, PartialEq)]
pub enum Goal {
    Signals,
    Crossing,
    Stop,
    Alongside,
    Limit,
    Bts,
}

impl Driver {
    /// Random fields, mostly in range; standstill and rearm often enough that the brake goes off again.
    pub fn random_sample(&mut self) -> bool {
        let most = (100_000 / self.tick()).min(65_535);
        self.change_pace(&[Pace::Stand, Pace::Edge, Pace::Edge, Pace::Edge], 5, 20);
        if self.session.cause != 0 && self.rng.chance(8) {
            self.pace = Pace::Stand;
            self.pace_left = self.rng.within(8, 14);
        }
        if self.rng.chance(1) {
            self.want_mode();
        }
        let mut sample = Sample::default();
        sample.pulses = match self.rng.within(0, 9) {
            0 | 1 => 0,
            2 | 3 => self.pulses(Pace::Edge, self.session.s),
            4 => self.pulses(Pace::Crawl, 0),
            _ => self.rng.within(0, most.min(1 + 45_000 / self.tick())) as u16,
        };
        if self.rng.chance(40) {
            sample.beacon = if self.rng.chance(20) { self.session.last_code } else { self.rng.within(0, 11) as u8 };
        }
        if self.rng.chance(45) {
            sample.buttons = 1 << self.rng.within(0, 10);
            if self.rng.chance(30) {
                sample.buttons |= 1 << self.rng.within(0, 10) | 1 << self.rng.within(0, 10);
            }
            if self.rng.chance(5) {
                sample.buttons = self.rng.within(0, 2047) as u16;
            }
        }
        let (mode, pace) = self.mode_and_pace(self.pace);
        sample.mode = mode;
        sample.beacon = self.heard(sample.beacon, mode);
        if matches!(pace, Pace::Stand) {
            sample.pulses = 0;
        }
        self.press_rearm(&mut sample);
        if self.rng.within(0, 1500) == 0 {
            damage::bend_sample(&mut self.rng, &mut sample, self.session.settings.tick);
        }
        self.push(sample)
    }

    /// Beacons close together, answered rightly, wrongly, late or not; a second 7 at either side of 80 m.
    pub fn answers_sample(&mut self) -> bool {
        let m = self.rng.within(3_000, 40_000);
        let near = self.rng.within(0, 2_000);
        self.change_pace(&[Pace::Under(near), Pace::Under(near), Pace::Edge, Pace::Crawl, Pace::Stand, Pace::Reckless(m)], 5, 60);
        let mut buttons = 0;
        if self.rng.chance(2) {
            buttons |= 128;
        }
        let to_80 = 80 * METRE - self.session.main_distance;
        if self.session.main == Main::Row(4) && to_80 > 0 && to_80 <= 100_000 && self.session.last_code != 7 && self.rng.chance(40) {
            // Exactly 80 m, or one pulse less, after the 7 that is main.
            let pulses = (to_80 / self.tick() - self.rng.within(0, 1)).clamp(0, 65_535);
            return self.push(Sample { pulses: pulses as u16, beacon: 7, buttons, mode: CONV });
        }
        if self.session.main_window.is_some_and(|window| window.zone && window.age < 9) && self.rng.chance(8) {
            // Over the zone's window while more than 30 samples are left to its miss.
            let code = self.rng.pick(&[1, 2, 5, 6, 7]);
            return self.go(code, buttons);
        }
        self.next_beacon -= 1;
        if self.next_beacon > 0 {
            let hold = self.session.last_code != 0 && self.rng.chance(15);
            let beacon = if hold { self.session.last_code } else { 0 };
            if self.rng.within(0, 400) == 0 || (self.session.mode == BTS && self.rng.chance(1)) {
                self.want_mode();
            }
            return self.go(beacon, buttons);
        }
        self.next_beacon = match self.rng.within(0, 9) {
            0..=3 => self.rng.within(1, 8),
            4..=7 => self.rng.within(9, 35),
            _ => self.rng.within(36, 60),
        };
        let code = self.rng.pick(&[1, 1, 1, 9, 9, 7, 7, 7, 3, 3, 8, 2, 5, 6, 10, 11, 4]);
        if self.session.main == Main::Row(4) && self.rng.chance(60) {
            let code = self.rng.pick(&[7, 7, 1]);
            return self.go(code, buttons);
        }
        if code == 7 && self.rng.chance(35) {
            // Fast to 80 m with nothing between.
            self.pace = Pace::Reckless(self.rng.within(40_000, 95_000));
            self.pace_left = 25;
            self.next_beacon = 25;
        }
        if code == 8 && self.rng.chance(50) {
            buttons |= 128;
        }
        if self.session.offer.is_some() && self.rng.chance(30) {
            // A beacon 4 while beacon 3's option is open.
            self.pace = Pace::Reckless(self.rng.within(11_200, 16_000));
            return self.go(4, buttons);
        }
        self.go(code, buttons)
    }

    /// Close under S from below, so that S is seen falling and other causes than 5 come first.
    pub fn drive_sample(&mut self) -> bool {
        let near = self.rng.within(0, 800);
        let far = self.rng.within(800, 4_000);
        self.change_pace(&[Pace::Edge, Pace::Edge, Pace::Under(near), Pace::Under(far), Pace::Crawl, Pace::Stand], 10, 80);
        let mut buttons = 0;
        self.next_beacon -= 1;
        if self.next_beacon == 20 && self.rng.chance(30) {
            buttons |= 128;
        }
        if self.rng.within(0, 1500) == 0 || (self.session.mode == BTS && self.rng.within(0, 300) == 0) {
            self.want_mode();
        }
        if self.next_beacon > 0 {
            return self.go(0, buttons);
        }
        self.next_beacon = self.rng.within(25, 200);
        let code = self.rng.pick(&[1, 1, 2, 3, 3, 4, 5, 6, 7, 8, 9, 10, 10, 11]);
        self.go(code, buttons)
    }

    /// One goal after the other, each held long enough for its distance or its samples.
    pub fn long_sample(&mut self) -> bool {
        self.goal_left -= 1;
        if self.goal_left <= 0 {
            self.new_goal();
        }
        if (self.goal == Goal::Bts) != (self.session.mode == BTS) {
            self.want_mode();
            return self.go(0, 0);
        }
        self.next_beacon -= 1;
        if self.next_beacon == 10 && self.goal == Goal::Stop {
            return self.go(0, 128);
        }
        if self.next_beacon > 0 {
            return self.go(0, 0);
        }
        let (code, gap) = match self.goal {
            Goal::Signals => (self.rng.pick(&[1, 2, 3, 5, 6, 7]), self.rng.within(40, 200)),
            Goal::Crossing => (self.rng.pick(&[4, 4, 3, 1, 9]), self.rng.within(300, 2_500)),
            Goal::Stop => (8, self.rng.within(300, 800)),
            Goal::Alongside => (self.rng.pick(&[1, 2, 3, 5, 6, 8]), self.rng.within(150, 400)),
            Goal::Limit => (self.rng.pick(&[1, 9, 10, 11]), self.rng.within(200, 700)),
            Goal::Bts => (self.rng.pick(&[4, 4, 9, 9, 10, 11, 10, 8, 3]), self.rng.within(30, 250)),
        };
        self.next_beacon = gap;
        self.go(code, 0)
    }

    /// It moves, creeps and stands by turns, and is braked often: rearms and mode changes around the tenth sample
    /// without pulses, in either mode, before it ever moved too. The last mode change may come too early.
    pub fn stand_sample(&mut self) -> bool {
        let zeros = self.rng.within(1, 12);
        let near = self.rng.within(0, 2_000);
        let m = self.rng.within(20_000, 60_000);
        self.change_pace(&[Pace::Stand, Pace::Creep(zeros), Pace::Creep(zeros), Pace::Under(near), Pace::Reckless(m)], 2, 15);
        if self.at_last_try() {
            if self.rng.chance(25) {
                // While moving, and out of range too: 9 or 10 goes before 11.
                let too_many = (100_000 / self.tick() + 1) as u16;
                let (pulses, beacon) = self.rng.pick(&[(1, 13), (too_many, 0)]);
                return self.push(Sample { pulses, beacon, buttons: 0, mode: 3 - self.session.mode });
            }
            let early = self.rng.within(1, 8);
            self.mode_at = Some(self.rng.pick(&[0, early, early, 9, 9, 9, 9, 10]));
        } else if self.rng.chance(3) {
            self.want_mode();
        }
        if self.session.cause != 0 && self.session.stood >= STANDING && self.rng.chance(20) {
            // A fresh cause with the rearm.
            return self.go(8, 1024);
        }
        self.next_beacon -= 1;
        if self.next_beacon > 0 {
            return self.go(0, 0);
        }
        self.next_beacon = self.rng.within(2, 30);
        let code = self.rng.pick(&[8, 8, 8, 1, 9, 10, 4]);
        self.go(code, 0)
    }

    /// Beacons close together, and a pickup that goes quiet often: behind a beacon and before the same again, where a window
    /// or a reminder is missed, over speed, with a mode change, with a rearm. The last sample may be one that is refused.
    pub fn quiet_sample(&mut self) -> bool {
        if self.goal == Goal::Stop {
            return self.reminder_sample();
        }
        if self.at_last_try() && self.rng.chance(90) {
            let (mode, most) = (self.session.mode, 100_000 / self.tick());
            let (pulses, beacon, buttons, mode) = self.rng.pick(&[
                (0, QUIET + 1, 0, mode), (0, QUIET, 2048, mode), (0, 0, 2048, mode), (0, QUIET, 2047, mode),
                (most + 1, QUIET, 0, mode), (1, QUIET, 0, CONV + BTS - mode),
            ]);
            return self.push(Sample { pulses: pulses as u16, beacon, buttons, mode });
        }
        let near = self.rng.within(0, 2_000);
        let zeros = self.rng.within(1, 12);
        self.change_pace(&[Pace::Stand, Pace::Under(near), Pace::Under(near), Pace::Edge, Pace::Creep(zeros)], 3, 40);
        let braked_in_bts = self.session.cause != 0 && self.session.mode == BTS;
        if self.rng.chance(if braked_in_bts { 10 } else { 3 }) {
            self.want_mode();
        }
        let buttons = if self.rng.chance(3) { 128 } else { 0 };
        self.next_beacon -= 1;
        if self.mode_at == Some(self.session.stood + 2) && self.rng.chance(60) {
            self.next_beacon = 0; // in the sample before the mode change
        }
        if self.next_beacon > 0 {
            let hold = self.rng.chance(15);
            return self.go(if hold { self.session.last_code } else { 0 }, buttons);
        }
        self.next_beacon = self.rng.within(1, 40);
        let code = self.rng.pick(&[1, 1, 2, 3, 4, 5, 6, 7, 7, 8, 9, 9, 10, 11]);
        let again = self.session.main == Main::Row(4) && self.rng.chance(40);
        self.go(if again { 7 } else { code }, buttons)
    }

    /// It is after a reminder at first, with a good pickup until one is missed.
    pub fn after_a_reminder(&mut self) {
        self.goal = Goal::Stop;
        self.pace = Pace::Edge;
        self.mode_at = None;
        self.fails = Fails { anywhere: 0, beacon: 0, ..self.fails };
    }

    /// Override, a stop passed and increased, then on until its reminders are over.
    fn reminder_sample(&mut self) -> bool {
        let (code, buttons) = match self.number() {
            0 => (0, 128),
            1 => (8, 0),
            2 => (0, 256),
            _ => (0, 0),
        };
        if !self.go(code, buttons) {
            return false;
        }
        match self.session.reminder {
            Reminder::Lit { age: 0, .. } if self.rng.chance(40) => self.fails.anywhere = 200,
            Reminder::Waits | Reminder::Lit { .. } | Reminder::Pressed { .. } => {}
            _ if self.number() > 3 => {
                self.goal = Goal::Signals;
                self.fails = Fails { anywhere: 200, beacon: 20, ..self.fails };
            }
            _ => {}
        }
        true
    }

    fn new_goal(&mut self) {
        // After a stop, something that takes its place.
        self.goal = if self.goal == Goal::Stop && self.rng.chance(70) {
            Goal::Alongside
        } else {
            self.rng.pick(&[Goal::Signals, Goal::Crossing, Goal::Stop, Goal::Stop, Goal::Stop, Goal::Stop, Goal::Limit, Goal::Bts])
        };
        self.goal_left = self.rng.within(300, 1_200);
        if self.goal == Goal::Bts {
            self.goal_left /= 2;
        }
        if self.goal == Goal::Stop && self.rng.chance(30) {
            // Taken over before its reminders are done.
            self.goal_left = self.rng.within(30, 300);
        }
        self.next_beacon = if self.goal == Goal::Alongside { 1 } else { self.rng.within(11, 30) };
        let m = self.rng.within(12_000, 60_000);
        let near = self.rng.within(0, if self.goal == Goal::Stop { 300 } else { 1_500 });
        self.pace = self.rng.pick(&[Pace::Edge, Pace::Under(near), Pace::Under(near), Pace::Under(near), Pace::Crawl, Pace::Reckless(m)]);
        if self.goal == Goal::Stop && self.rng.chance(75) {
            // Most stops are run at their own speed, so that the reminder's cause is the first.
            self.pace = self.rng.pick(&[Pace::Edge, Pace::Under(near)]);
        }
    }
}
