//! Rides after limit beacons in pairs: pairs of every kind on both sides of the pair distance, the single limit beside them, and
//! button 6 and increase on what stands.

use crate::card::{Settings, LIMIT, PAIR_SPEEDS, START};
use crate::desk::{Sample, BTS, METRE, QUIET, STANDING};
use crate::make::{pair_settings, Rng};
use crate::steer::{Driver, Pace};

/// Where a second comes, counted from the first.
#[derive(Clone, Copy, PartialEq)]
pub enum Where {
    /// With no pulses.
    Here,
    /// At the pace, in the next sample.
    Soon,
    /// At the pair distance, a pulse before it, or a pulse behind it; farther by some metres.
    At,
    Before,
    Behind,
    Far,
}

/// What comes next in a ride.
#[derive(Clone, Copy, PartialEq)]
pub enum Act {
    Wait(i64),
    Read(u8),
    Press(u16),
    Second(u8, Where),
    /// The button at the last speed below this many hundredths of km/h, or at the first that is not, without a window that waits.
    PressAt(u16, i64, bool),
    Mode,
}

const LIMIT_BUTTON: u16 = 64;
const INCREASE: u16 = 256;
const HIDE: u16 = 512;

/// Version 3 mostly. The single limit's final is at, below or above a pair's speed, from the first or soon; the start is no hindrance.
pub fn near_pairs(rng: &mut Rng, settings: &mut Settings) -> u8 {
    let version = rng.pick(&[1, 2, 3, 3, 3, 3, 3, 3, 3, 3]);
    settings.vmax = settings.vmax.max(120);
    if rng.chance(70) {
        settings.tick = rng.pick(&[100, 100, 100, 50, 20, 250]);
    }
    let any = rng.within(15, 80) as u8;
    let r#final = rng.pick(&[30, 40, 40, 50, 50, 60, 70, any]);
    let row = &mut settings.rows[LIMIT];
    row.r#final = r#final;
    row.initial = if rng.chance(55) { r#final } else { rng.pick(&[100, 120, 160]) };
    (row.delay, row.drop) = (rng.within(0, 12) as u8, rng.within(180, 255) as u8);
    let row = &mut settings.rows[START];
    (row.initial, row.r#final) = (160, rng.pick(&[120, 160]));
    (settings.functions, settings.x, settings.y) = if rng.chance(75) { (15, 20, 50) } else { (rng.pick(&[0, 3, 8, 11]), 0, 0) };
    (settings.pairs, settings.distance) = ([0; 4], 0);
    match version {
        1 => (settings.functions, settings.x, settings.y) = (0, 0, 0),
        3 => {
            pair_settings(rng, settings);
            if rng.chance(50) {
                settings.pairs = PAIR_SPEEDS;
            }
            if rng.chance(50) {
                settings.distance = rng.pick(&[1, 2, 4, 5, 8, 10]);
            }
        }
        _ => {}
    }
    version
}

impl Driver {
    /// One play after the other, in either mode; they mostly wait while the train is braked.
    pub fn pairs_sample(&mut self) -> bool {
        let near = self.rng.within(0, 2_500);
        self.change_pace(&[Pace::Under(near), Pace::Under(near), Pace::Edge, Pace::Crawl, Pace::Stand], 10, 50);
        if self.session.cause != 0 && self.rng.chance(88) {
            self.held = Pace::Stand;
            return self.go(0, 0);
        }
        if self.mode_at.is_some() {
            return self.go(0, 0);
        }
        match self.acts.pop() {
            Some(act) => self.act(act),
            None => {
                self.begin_pairs();
                self.go(0, 0)
            }
        }
    }

    fn act(&mut self, act: Act) -> bool {
        match act {
            Act::Wait(samples) => {
                if samples > 1 {
                    self.acts.push(Act::Wait(samples - 1));
                }
                self.go(0, 0)
            }
            Act::Read(code) => self.go(code, 0),
            Act::Press(mask) => self.go(0, mask),
            Act::Second(code, place) => self.second(code, place),
            Act::PressAt(mask, value, below) => self.press_at(mask, value, below),
            Act::Mode => {
                self.mode_at = Some(STANDING);
                self.go(0, 0)
            }
        }
    }

    /// Equal codes need another one between: none, a quiet pickup, a beacon.
    fn second(&mut self, code: u8, place: Where) -> bool {
        if self.session.last_code == code {
            self.acts.push(Act::Second(code, place));
            if place == Where::Here {
                let mode = self.session.mode;
                let beacon = self.rng.pick(&[0, QUIET, 7]);
                return self.push(Sample { pulses: 0, beacon, buttons: 0, mode });
            }
            let beacon = self.rng.pick(&[0, 0, 0, 0, QUIET, QUIET, 7, 4, 9]);
            return self.go(beacon, 0);
        }
        let mode = self.session.mode;
        let (tick, most) = (self.tick(), (100_000 / self.tick()).min(65_535));
        let pair = METRE * self.session.settings.distance as i64;
        let (Some(first), true) = (self.session.first, self.session.cause == 0 && place != Where::Soon) else {
            return self.go(code, 0);
        };
        let rest = pair - first.distance;
        let near = if self.rng.chance(60) { 9_000.max(2 * tick) } else { 40_000 };
        let pulses = match place {
            Where::Here | Where::Soon => 0,
            _ if rest > near => {
                // On towards it, without the code.
                self.acts.push(Act::Second(code, place));
                let pulses = (self.pulses(Pace::Under(0), self.session.s) as i64).min((rest - 1) / tick).max(1);
                return self.push(Sample { pulses: pulses as u16, beacon: 0, buttons: 0, mode });
            }
            Where::At => rest / tick,
            Where::Before => rest / tick - 1,
            Where::Behind => rest / tick + 1,
            Where::Far => rest / tick + self.rng.within(2, 1 + 30_000 / tick),
        };
        self.push(Sample { pulses: pulses.clamp(0, most) as u16, beacon: code, buttons: 0, mode })
    }

    fn press_at(&mut self, mask: u16, value: i64, below: bool) -> bool {
        if self.session.side_window.is_some() && self.rng.chance(90) {
            self.acts.push(Act::PressAt(mask, value, below));
            return self.go(0, LIMIT_BUTTON);
        }
        if self.session.cause != 0 {
            return self.go(0, mask);
        }
        let tick = self.tick();
        // The last m with 9m < 25 × value, and the first that has not.
        let last = (25 * value - 1) / 9 / tick;
        let pulses = if below { last } else { last + 1 }.clamp(0, (100_000 / tick).min(65_535));
        let mode = self.session.mode;
        self.push(Sample { pulses: pulses as u16, beacon: 0, buttons: mask, mode })
    }

    /// What stands is dropped by a mode change now and then, or taken off.
    fn begin_pairs(&mut self) {
        let stands = self.session.paired_standing().len() as i64;
        let changes = if self.session.mode == BTS { 45 } else if stands > 2 { 20 } else { 4 };
        if self.rng.chance(changes) {
            self.mode_at = Some(STANDING);
            return;
        }
        let takes_off = match (stands, self.session.limit.is_some()) {
            (0, false) => 0,
            (0, true) | (1, false) => 25,
            _ => 60,
        };
        let mut play = match self.rng.chance(takes_off) {
            true => self.take_off(),
            false => self.make_pairs(),
        };
        play.reverse();
        self.acts = play;
    }

    /// Button 6 at speeds around the values that stand, the lowest of them mostly, and around the next.
    fn take_off(&mut self) -> Vec<Act> {
        let mut values: Vec<i64> = self.session.paired_standing().iter().map(|(_, value, _)| *value).collect();
        values.extend(self.session.limit.map(|limit| self.session.limit_final(limit)));
        values.sort();
        let mut acts = Vec::new();
        if self.session.limit.is_some_and(|limit| limit.answered && limit.steps == 0) && self.rng.chance(50) {
            acts.push(Act::Press(INCREASE));
        }
        for _ in 0..self.rng.within(1, 4) {
            let value = if self.rng.chance(70) { values[0] } else { self.rng.pick(&values) };
            acts.push(Act::PressAt(LIMIT_BUTTON, value, self.rng.chance(35)));
            if self.rng.chance(30) {
                acts.push(Act::PressAt(self.rng.pick(&[INCREASE, HIDE]), value, true));
            }
        }
        acts
    }

    /// One of the plays with pairs.
    fn make_pairs(&mut self) -> Vec<Act> {
        let [a, b, c, d] = [0; 4].map(|_| self.rng.pick(&[10, 11]));
        let place = self.rng.pick(&[Where::Here, Where::Soon, Where::At, Where::At, Where::Before, Where::Behind, Where::Behind, Where::Far]);
        let near = self.rng.pick(&[Where::Here, Where::Soon, Where::Soon, Where::At, Where::Before]);
        let far = self.rng.pick(&[Where::Behind, Where::Far]);
        let asks = self.rng.pick(&[9, 1]);
        let (soon, later) = (self.rng.within(1, 5), self.rng.within(8, 29));
        let (read, second, press) = (Act::Read, Act::Second, Act::Press);
        let set = [read(asks), Act::Wait(soon), press(LIMIT_BUTTON)];
        let change = self.rng.pick(&[INCREASE, INCREASE, INCREASE, INCREASE, HIDE]);
        let steps = vec![Act::Wait(later), press(INCREASE), press(change)];
        let low = Act::PressAt(LIMIT_BUTTON, self.rng.pick(&[1000, 2000, 3000]), true);
        let turns = [0, 0, 1, 1, 2, 3, 4, 4, 5, 5, 5, 6, 7, 7, 7, 7, 8, 9, 10, 11, 11, 11, 12, 12, 12, 13, 13, 14, 15, 16, 17, 17, 18, 18, 19, 19];
        let turn = if self.session.mode == BTS && self.rng.chance(25) { 15 } else { self.rng.pick(&turns) };
        if turn >= 14 && turn <= 18 {
            // At one place.
            (self.pace, self.pace_left) = (Pace::Stand, if turn == 17 { 80 } else { 40 });
        }
        match turn {
            0 => vec![read(a), second(b, place), Act::Wait(soon)],
            1 => vec![read(a), read(a), second(b, near), second(c, near), second(d, near)],
            2 => vec![read(a), second(b, far), second(c, near), press(LIMIT_BUTTON)],
            // A single that stood before, set since, or taken off; and steps behind it.
            3 => [&set[..], &[press(INCREASE), read(a), second(b, near), press(LIMIT_BUTTON)], &steps].concat(),
            4 => [&[read(a), press(LIMIT_BUTTON)], &set[..], &[second(b, near), press(LIMIT_BUTTON)], &steps, &[low]].concat(),
            5 => [&[read(11)], &set[..], &[second(b, Where::Here)], &steps, &[low]].concat(),
            6 => vec![Act::Mode, read(a), press(LIMIT_BUTTON), low, second(b, near)],
            7 => [&[Act::Mode, read(a), press(LIMIT_BUTTON), low], &set[..], &[second(b, near)], &steps].concat(),
            8 => [&[read(a), second(b, far), press(LIMIT_BUTTON)], &steps[..], &set, &steps].concat(),
            9 => [&set[..], &[low, read(a), press(LIMIT_BUTTON)], &steps].concat(),
            10 => [&set[..], &steps, &[read(a), press(LIMIT_BUTTON)], &steps].concat(),
            11 => [&[Act::Mode], &set[..], &[read(a), second(b, Where::Here), low, low]].concat(),
            // Windows: a fresh one, missed or answered; in a 9's place; a first missed before its second.
            12 => vec![read(a), press(LIMIT_BUTTON), Act::Wait(soon), second(b, near), Act::Wait(31)],
            18 => vec![read(a), second(b, Where::Here), Act::Wait(31)],
            13 => vec![read(a), press(LIMIT_BUTTON), read(9), second(b, near), Act::Wait(later), press(LIMIT_BUTTON)],
            14 => vec![read(a), Act::Wait(31), second(b, Where::Here)],
            // A mode change between, and time, and a stop passed without override.
            15 => vec![read(a), Act::Mode, Act::Wait(2), second(b, Where::Here), second(c, near)],
            16 => vec![read(a), press(LIMIT_BUTTON), Act::Wait(soon), read(8), second(b, Where::Here)],
            17 => vec![read(a), press(LIMIT_BUTTON), Act::Wait(65), second(b, Where::Here)],
            // A pair of each kind, one behind the other.
            _ => {
                let all = [(10, 10), (10, 11), (11, 10), (11, 11)];
                all.iter().flat_map(|(one, other)| vec![second(*one, Where::Soon), second(*other, Where::Here)]).collect()
            }
        }
    }
}
