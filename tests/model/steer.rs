//! Rides by seed. The model itself runs beside the ride, so that presses and speeds meet what stands.

use crate::card::Settings;
use crate::damage;
use crate::desk::{train_speed, Reminder, Sample, Session, QUIET, STANDING};
use crate::kinds::Goal;
use crate::make::{card_bytes, good_settings, Rng};
use crate::pairs_kind::{near_pairs, Act};
use crate::ride::recorded;
use crate::why_kind::{equal_speeds, Step};

/// How the train runs against S.
#[derive(Clone, Copy)]
pub enum Pace {
    Stand,
    /// One pulse behind that many samples without, as with a long tick at 1 km/h.
    Creep(i64),
    /// Around 5 and 40 km/h.
    Crawl,
    /// That many hundredths of km/h under S.
    Under(i64),
    /// At the last speed without cause 5.
    Edge,
    /// This m, whatever S is.
    Reckless(i64),
}

/// How the driver answers: chances in percent.
#[derive(Clone, Copy)]
pub struct Care {
    pub asleep: i64,
    pub at_an_end: i64,
    pub wrong: i64,
    pub reminded: i64,
}

/// How often the pickup goes quiet: in ten thousand samples, and, in percent, behind a beacon, with a mode change, and where
/// a window or a reminder is missed. How often the train is over speed then, or all but over it, in percent.
#[derive(Clone, Copy)]
pub struct Fails {
    pub anywhere: i64,
    pub beacon: i64,
    pub mode: i64,
    pub miss: i64,
    pub over: i64,
}

pub struct Driver {
    pub rng: Rng,
    pub session: Session,
    pub samples: Vec<Sample>,
    pub presses: Vec<(usize, u16)>,
    pub care: Care,
    pub fails: Fails,
    /// The samples for which the pickup stays quiet, and the code that it heard before.
    quiet_left: i64,
    before_quiet: u8,
    pub pace: Pace,
    pub pace_left: i64,
    /// How a braked train is held: it stands, or creeps for a while.
    pub held: Pace,
    /// The count, that sample included, at which the mode is to change; 0 is one with a pulse.
    pub mode_at: Option<i64>,
    /// The sample from which a ride of kind stand is after its last mode change, maybe one that is refused; the last
    /// one of kind quiet.
    last_try: usize,
    pub goal: Goal,
    pub goal_left: i64,
    pub next_beacon: i64,
    pub plays: Vec<Step>,
    pub acts: Vec<Act>,
}

/// A card's bytes and a recording's, by kind.
pub fn make_ride(kind: &str, seed: u64, samples: u64) -> Option<(Vec<u8>, Vec<u8>)> {
    let mut rng = Rng::new(kind, seed);
    if kind == "damaged" {
        return Some(damage::damaged(&mut rng, samples as usize));
    }
    let (card, session) = fresh(&mut rng, kind);
    let train = session.train;
    Some((card, recorded(train, &run(rng, session, kind, samples as usize)?)))
}

/// A good card, sometimes with garbage behind it, and the session it opens.
pub fn fresh(rng: &mut Rng, kind: &str) -> (Vec<u8>, Session) {
    let (mut version, mut settings) = good_settings(rng);
    if kind == "long" && rng.chance(75) {
        version = version.max(2);
        settings.functions = 15;
        settings.x = rng.pick(&[2, 3, 20, 51, 120, 200]);
        settings.y = rng.pick(&[3, 40, 100, 500, 2000]);
    }
    if kind == "stand" && rng.chance(40) {
        settings.tick = 1000;
    }
    if kind == "why" {
        version = version.max(2);
        equal_speeds(rng, &mut settings);
    }
    if kind == "pairs" {
        version = near_pairs(rng, &mut settings);
    }
    let mut card = card_bytes(rng, version, &settings);
    if rng.chance(10) {
        card.extend([0xff; 7]);
    }
    let train = train_for(rng, &settings);
    (card, Session::open(version, settings, train).unwrap())
}

/// A train type that refusal 7 allows.
pub fn train_for(rng: &mut Rng, settings: &Settings) -> u8 {
    let allowed: Vec<u8> = (1..=8).filter(|train| train_speed(*train) <= settings.vmax as i64).collect();
    if rng.chance(40) { allowed[allowed.len() - 1] } else { rng.pick(&allowed) }
}

/// Most rides move soon; some stand at first, and some change the mode in their first sample.
pub fn run(mut rng: Rng, session: Session, kind: &str, samples: usize) -> Option<Vec<Sample>> {
    let care = match kind {
        "answers" => Care { asleep: 15, at_an_end: 40, wrong: 15, reminded: 65 },
        "long" => Care { asleep: 4, at_an_end: 6, wrong: 4, reminded: 80 },
        "quiet" => Care { asleep: 60, at_an_end: 20, wrong: 10, reminded: 20 },
        "why" | "pairs" => Care { asleep: 70, at_an_end: 10, wrong: 5, reminded: 65 },
        _ => Care { asleep: 4, at_an_end: 6, wrong: 4, reminded: 65 },
    };
    let fails = match kind {
        "quiet" => {
            let (anywhere, beacon) = (rng.pick(&[10, 100, 500]), rng.pick(&[0, 20, 50]));
            Fails { anywhere, beacon, mode: 50, miss: 85, over: 20 }
        }
        "stand" | "random" => Fails { anywhere: 60, beacon: 4, mode: 6, miss: 4, over: 4 },
        "answers" => Fails { anywhere: 15, beacon: 2, mode: 6, miss: 25, over: 2 },
        "long" => Fails { anywhere: 4, beacon: 2, mode: 6, miss: 2, over: 2 },
        _ => Fails { anywhere: 15, beacon: 2, mode: 6, miss: 2, over: 2 },
    };
    let (stands, changes) = if kind == "stand" || kind == "quiet" { (40, 35) } else { (20, 8) };
    let pace_left = if rng.chance(stands) { rng.within(10, 60) } else { 3 };
    let mode_at = if rng.chance(changes) { Some(STANDING) } else { None };
    let last_try = if kind == "quiet" { samples.max(1) - 1 } else { rng.within(2, (samples as i64 - 15).max(4)) as usize };
    let mut driver = Driver {
        rng, session, samples: Vec::new(), presses: Vec::new(), care, fails, quiet_left: 0, before_quiet: 0,
        pace: Pace::Stand, pace_left, held: Pace::Stand, mode_at, last_try, goal: Goal::Signals, goal_left: 100,
        next_beacon: 5, plays: Vec::new(), acts: Vec::new(),
    };
    if kind == "quiet" && driver.session.settings.function(2) && driver.rng.chance(40) {
        driver.after_a_reminder();
    }
    while driver.samples.len() < samples.min(10_000) {
        let accepted = match kind {
            "random" => driver.random_sample(),
            "answers" => driver.answers_sample(),
            "drive" => driver.drive_sample(),
            "long" => driver.long_sample(),
            "stand" => driver.stand_sample(),
            "quiet" => driver.quiet_sample(),
            "why" => driver.why_sample(),
            "pairs" => driver.pairs_sample(),
            _ => return None,
        };
        if !accepted {
            break;
        }
    }
    Some(driver.samples)
}

impl Driver {
    pub fn tick(&self) -> i64 {
        self.session.settings.tick as i64
    }

    /// Pulses for a pace at S.
    pub fn pulses(&mut self, pace: Pace, s: i64) -> u16 {
        let tick = self.tick();
        let most = (100_000 / tick).min(65_535);
        let allowed = 25 * (s + 500) / 9 / tick;
        let pulses = match pace {
            Pace::Stand => 0,
            Pace::Creep(zeros) => (self.session.stood >= zeros) as i64,
            Pace::Crawl => self.rng.pick(&[1_388, 1_389, 1_400, 5_000, 11_111, 11_112]) / tick + self.rng.within(0, 1),
            Pace::Under(h) => (25 * (s - h).max(0) / 9 / tick).min(allowed),
            Pace::Edge => allowed,
            Pace::Reckless(m) => m / tick,
        };
        pulses.clamp(0, most) as u16
    }

    /// Runs the sample on the model and keeps it; false when it is refused, which ends the ride.
    pub fn push(&mut self, sample: Sample) -> bool {
        let (mode, cause) = (self.session.mode, self.session.cause);
        self.samples.push(sample);
        if self.session.sample(sample).is_err() {
            return false;
        }
        if self.session.mode != mode {
            // Now and then straight back.
            self.mode_at = if self.rng.chance(20) { Some(STANDING) } else { None };
        }
        if cause == 0 && self.session.cause != 0 {
            let zeros = self.rng.within(1, 11);
            self.held = self.rng.pick(&[Pace::Stand, Pace::Stand, Pace::Stand, Pace::Creep(zeros)]);
        }
        self.plan();
        true
    }

    /// The samples that it has so far.
    pub fn number(&self) -> usize {
        self.samples.len()
    }

    pub fn at_last_try(&self) -> bool {
        self.samples.len() == self.last_try
    }

    /// A mode change as soon as the train stands, or somewhat later.
    pub fn want_mode(&mut self) {
        if self.mode_at.is_none() {
            let later = self.rng.within(STANDING + 1, 30);
            self.mode_at = Some(self.rng.pick(&[STANDING, STANDING, STANDING + 1, later]));
        }
    }

    /// The mode of the next sample, and the pace that a wanted mode change needs. Below ten a count is counted from a
    /// pulse.
    pub fn mode_and_pace(&self, pace: Pace) -> (u8, Pace) {
        let (mode, stood) = (self.session.mode, self.session.stood);
        match self.mode_at {
            None => (mode, pace),
            Some(0) => (3 - mode, Pace::Creep(0)),
            Some(count) if count < STANDING && stood >= count => (mode, Pace::Creep(0)),
            Some(count) if stood + 1 < count => (mode, Pace::Stand),
            Some(_) => (3 - mode, Pace::Stand),
        }
    }

    /// On a braked desk rearm is pressed at every count, mostly where it may work, with a mode change, and where a window is
    /// about to be missed.
    pub fn press_rearm(&mut self, sample: &mut Sample) {
        if self.session.cause == 0 {
            return;
        }
        let windows = self.session.main_window.iter().chain(self.session.side_window.iter());
        let chance = match (self.session.stood_with(sample), windows.map(|window| window.left).min()) {
            (0, _) => 5,
            (1..=8, _) => 10,
            _ if sample.mode != self.session.mode => 60,
            (_, None) => 40,
            (_, Some(1)) => 80,
            _ => 20,
        };
        if self.rng.chance(chance) {
            sample.buttons |= 1024;
        }
    }

    /// One sample with this beacon: scheduled presses, the mode that is wanted, and the pace held against the S it will
    /// meet.
    pub fn go(&mut self, beacon: u8, more_buttons: u16) -> bool {
        let n = self.samples.len();
        let mut buttons = more_buttons;
        for (at, mask) in &self.presses {
            if *at == n {
                buttons |= *mask;
            }
        }
        self.presses.retain(|(at, _)| *at > n);
        let mut pace = self.pace;
        if self.session.cause != 0 && !matches!(pace, Pace::Reckless(_)) {
            pace = self.held;
            if self.rng.chance(4) {
                self.held = Pace::Stand;
            }
        }
        let (mode, pace) = self.mode_and_pace(pace);
        let beacon = self.heard(beacon, mode);
        let s = self.session.s;
        let mut sample = Sample { pulses: self.pulses(pace, s), beacon, buttons, mode };
        let mut trial = self.session.clone();
        if trial.sample(sample).is_ok() {
            sample.pulses = self.pulses(pace, trial.s);
            if matches!(trial.reminder, Reminder::Lit { age: 0, .. }) && self.rng.chance(20) {
                sample.buttons |= 128;
            }
        }
        if !matches!(pace, Pace::Stand | Pace::Creep(_)) {
            self.aim(&mut sample);
        }
        if matches!(pace, Pace::Edge) && self.rng.within(0, 299) == 0 && (sample.pulses as i64 + 1) * self.tick() <= 100_000 {
            sample.pulses += 1;
        }
        let may_move = mode == self.session.mode && self.session.cause == 0;
        if beacon == QUIET && may_move && self.rng.chance(self.fails.over) {
            // At the last speed without cause 5, or the first with it.
            let pulses = self.pulses(Pace::Edge, trial.s) as i64 + self.rng.pick(&[0, 1, 1]);
            sample.pulses = pulses.min((100_000 / self.tick()).min(65_535)) as u16;
        }
        self.press_rearm(&mut sample);
        self.push(sample)
    }

    /// What the pickup hears of a code in a sample of this mode: nothing for one sample or for some, and behind that
    /// often the code before it again.
    pub fn heard(&mut self, code: u8, mode: u8) -> u8 {
        if self.quiet_left == 0 && self.goes_quiet(mode) {
            let long = self.rng.within(1, 12);
            self.quiet_left = self.rng.pick(&[1, 1, 1, 2, 3, long]);
            if !self.session.quiet() {
                self.before_quiet = self.session.last_code;
            }
        }
        if self.quiet_left > 0 {
            self.quiet_left -= 1;
            return QUIET;
        }
        if self.session.quiet() {
            let other = self.rng.within(1, 11) as u8;
            return self.rng.pick(&[self.before_quiet, self.before_quiet, self.before_quiet, other, code, code]);
        }
        code
    }

    /// Whether it goes quiet in this sample, which misses something, stands behind a beacon, changes the mode, or is any.
    fn goes_quiet(&mut self, mode: u8) -> bool {
        let mut windows = self.session.main_window.iter().chain(self.session.side_window.iter());
        let misses = windows.any(|window| window.left == 1)
            || matches!(self.session.reminder, Reminder::Lit { age: 49, .. });
        let beacon = self.session.last_code != 0 && !self.session.quiet();
        (misses && self.rng.chance(self.fails.miss))
            || (beacon && self.rng.chance(self.fails.beacon))
            || (mode != self.session.mode && self.rng.chance(self.fails.mode))
            || self.rng.within(0, 9_999) < self.fails.anywhere
    }

    /// A new pace now and then.
    pub fn change_pace(&mut self, paces: &[Pace], shortest: i64, longest: i64) {
        self.pace_left -= 1;
        if self.pace_left <= 0 {
            self.pace = self.rng.pick(paces);
            self.pace_left = self.rng.within(shortest, longest);
        }
    }
}
