//! What a driver aims at: pulses that meet an end, and presses for what a sample has started.

use crate::desk::{Main, Reminder, Sample, Window, METRE};
use crate::steer::Driver;
use crate::windows::waits_for;

impl Driver {
    /// Pulses that meet an end exactly or miss it by one: a distance about to be reached, the limit's final value,
    /// 5 km/h while X counts.
    pub fn aim(&mut self, sample: &mut Sample) {
        let tick = self.tick();
        let m = sample.pulses as i64 * tick;
        let mut to_go = Vec::new();
        if let Some(crossing) = self.session.crossing {
            to_go.push(1_800 * METRE - crossing.distance);
            if crossing.protected && self.rng.chance(4) {
                sample.pulses = (11_112 / tick + self.rng.within(0, 1)) as u16;
            }
            let to_35 = 35 * METRE - crossing.distance;
            if crossing.protected && (11_200..45_000).contains(&to_35) {
                to_go.push(to_35);
            }
        }
        match self.session.reminder {
            Reminder::Waits => to_go.push(200 * METRE - self.session.main_distance),
            Reminder::Pressed { distance, .. } => {
                to_go.push(self.session.settings.y as i64 * METRE - distance);
                if self.rng.chance(8) {
                    sample.pulses = ((1_389 / tick) - self.rng.within(0, 1) + self.rng.within(0, 1)).max(0) as u16;
                }
            }
            _ => {}
        }
        for rest in to_go {
            if rest > 0 && rest <= (m + tick).max(20_000) && self.rng.chance(50) {
                sample.pulses = (rest / tick - self.rng.pick(&[0, 0, 1])).clamp(0, 100_000 / tick) as u16;
            }
        }
        if let Some(limit) = self.session.limit {
            if self.rng.chance(5) {
                sample.pulses = (25 * self.session.limit_final(limit) / 9 / tick + self.rng.within(0, 1)) as u16;
            }
        }
    }

    fn press_in(&mut self, samples: i64, mask: u16) {
        self.presses.push((self.samples.len() + samples as usize - 1, mask));
    }

    /// Schedules presses for what this sample has started.
    pub fn plan(&mut self) {
        let (main, side) = (self.session.main_window, self.session.side_window);
        for window in main.iter().chain(side.iter()) {
            if window.age == 0 {
                self.plan_answer(*window);
            }
        }
        if self.session.offer.is_some_and(|offer| offer.age == 0) && self.rng.chance(50) {
            let age = if self.rng.chance(30) { self.rng.pick(&[1, 28, 29, 30]) } else { self.rng.within(1, 29) };
            self.press_in(age, 32);
        }
        if let Reminder::Lit { age: 0, .. } = self.session.reminder {
            let age = if self.rng.chance(25) { self.rng.pick(&[1, 48, 49, 50, 51]) } else { self.rng.within(1, 49) };
            if self.rng.chance(self.care.reminded) {
                self.press_in(age, 128);
            }
        }
        if self.session.main == Main::Stop && self.session.main_age == 0 && self.rng.chance(60) {
            let age = if self.rng.chance(30) { self.rng.pick(&[1, 98, 99, 100]) } else { self.rng.within(1, 99) };
            self.press_in(age, 256);
        }
        if let Some(limit) = self.session.limit {
            let (step, other) = if self.session.limit_at_final(limit) { (8, 2) } else { (1, 1) };
            if self.rng.chance(step) {
                self.press_in(1, 256);
            }
            if self.rng.chance(other) {
                let mask = self.rng.pick(&[64, 512, 512]);
                self.press_in(1, mask);
            }
        }
    }

    fn plan_answer(&mut self, window: Window) {
        if self.rng.chance(if window.left > 30 && !window.zone { 50 } else { self.care.asleep }) {
            return;
        }
        let at_an_end = self.rng.chance(self.care.at_an_end);
        let age = match (window.zone, at_an_end) {
            (true, true) => self.rng.pick(&[9, 10, 11, 38, 39, 40, 41]),
            (true, false) => self.rng.within(10, 39),
            (false, true) => self.rng.pick(&[1, 28, 29, 30, 31]),
            (false, false) => self.rng.within(1, 29),
        };
        let right = 1 << self.rng.pick(waits_for(window.beacon));
        let wrong = 1 << self.rng.within(0, 10);
        let mask = if self.rng.chance(self.care.wrong) { self.rng.pick(&[wrong, wrong | right]) } else { right };
        self.press_in(age, mask);
    }
}
