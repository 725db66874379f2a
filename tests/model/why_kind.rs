//! Rides after the reason: cards on which limits equal each other, and plays that have each of them set S.

use crate::card::{Settings, LIMIT, UNPROTECTED};
use crate::desk::{BTS, QUIET, STANDING};
use crate::make::Rng;
use crate::steer::{Driver, Pace};

/// A step of a play: the samples before it, its beacon, its buttons.
pub type Step = (i64, u8, u16);

const CROSSING_BUTTON: u16 = 32;
const LIMIT_BUTTON: u16 = 64;
const OVERRIDE: u16 = 128;
const INCREASE: u16 = 256;
const HIDE: u16 = 512;
const REARM: u16 = 1024;

/// vmax is a train's T, and the rows and the BTS speed are of few speeds, crossing and limit often of the lowest; rows fall fast, or
/// not at all. Functions are mostly all on.
pub fn equal_speeds(rng: &mut Rng, settings: &mut Settings) {
    settings.vmax = rng.pick(&[80, 90, 100, 120, 140, 160, 160, 180, 180, 200, 200, 200]);
    if rng.chance(70) {
        settings.tick = 100;
    }
    if rng.chance(85) {
        (settings.functions, settings.x, settings.y) = (15, 20, 50);
    }
    let any = rng.within(20, 200) as u8;
    let speeds = [40, 40, 60, 80, 100, settings.vmax, 155, any];
    let few = [rng.pick(&speeds), rng.pick(&speeds), rng.pick(&speeds)];
    let lowest = few.iter().copied().min().unwrap();
    settings.bts = rng.pick(&few);
    for (i, row) in settings.rows.iter_mut().enumerate() {
        let low = (i == UNPROTECTED || i == LIMIT) && rng.chance(60);
        row.initial = if low { lowest } else { rng.pick(&few) };
        row.r#final = rng.pick(&few).min(row.initial);
        row.delay = rng.within(0, 20) as u8;
        row.drop = rng.within(150, 255) as u8;
    }
}

impl Driver {
    /// One play after the other, in either mode; they go on while the train is braked.
    pub fn why_sample(&mut self) -> bool {
        let near = self.rng.within(0, 1_500);
        self.change_pace(&[Pace::Under(near), Pace::Under(near), Pace::Edge, Pace::Stand], 15, 60);
        if self.session.crossing.is_some_and(|crossing| crossing.protected && crossing.age > 8) && self.rng.chance(8) {
            // It turns, or goes on at the last speed at which it does not.
            self.pace = self.rng.pick(&[Pace::Stand, Pace::Crawl, Pace::Crawl]);
            self.pace_left = 5;
        }
        let Some((wait, code, buttons)) = self.plays.pop() else {
            self.begin_play();
            return self.go(0, 0);
        };
        if wait > 0 {
            self.plays.push((wait - 1, code, buttons));
            return self.go(0, 0);
        }
        self.go(code, buttons)
    }

    /// Mostly when the brake is off and the mode is not about to change. What stands is dropped by a mode change now and then, so
    /// that the next play begins with little. A rearm in BTS may come with a 12.
    fn begin_play(&mut self) {
        if (self.session.cause != 0 || self.mode_at.is_some()) && self.rng.chance(95) {
            self.held = Pace::Stand;
            if self.session.cause != 0 && self.session.stood + 1 >= STANDING {
                let code = if self.session.mode == BTS { self.rng.pick(&[0, 0, QUIET]) } else { 0 };
                self.plays = vec![(0, code, REARM)];
            }
            return;
        }
        let session = &self.session;
        let stands = session.crossing.is_some() || session.limit.is_some() || session.alongside.is_some();
        let in_bts = session.mode == BTS;
        let protected = if session.crossing.is_some() { 0 } else if session.t() > 155 { 50 } else { 10 };
        if self.rng.chance(if in_bts { 80 } else if stands { 60 } else { 5 }) {
            self.mode_at = Some(STANDING);
            return;
        }
        let mut play = match self.rng.chance(protected) {
            _ if in_bts => self.bts_play(),
            true => self.protected_play(),
            false => self.play(),
        };
        play.reverse();
        self.plays = play;
    }

    /// A crossing and a limit read in BTS.
    fn bts_play(&mut self) -> Vec<Step> {
        let (soon, limit) = (self.rng.within(1, 6), self.rng.pick(&[10, 11]));
        let side_button = self.rng.pick(&[CROSSING_BUTTON, LIMIT_BUTTON]);
        match self.rng.within(0, 2) {
            0 => vec![(0, 9, 0), (soon, 0, side_button), (soon, limit, 0), (soon, 0, INCREASE)],
            1 => vec![(0, limit, 0), (soon, 9, 0), (31, limit, 0), (soon, 0, 0)],
            _ => vec![(0, 4, 0), (soon, limit, 0), (soon, 0, LIMIT_BUTTON), (soon, 4, 0)],
        }
    }

    /// Protected by a 4 or by a 3 answered, and again.
    fn protected_play(&mut self) -> Vec<Step> {
        let near = self.rng.within(0, 1_500);
        (self.pace, self.pace_left) = (Pace::Under(near), 40);
        let (soon, later) = (self.rng.within(1, 6), self.rng.within(7, 29));
        match self.rng.within(0, 3) {
            0 => vec![(0, 3, 0), (soon, 4, 0), (soon, 4, 0), (later, 0, 0)],
            1 => vec![(0, 3, 0), (soon, 0, CROSSING_BUTTON), (soon, 4, 0), (later, 0, 0)],
            2 => vec![(0, 3, 0), (later, 0, CROSSING_BUTTON), (later, 0, 0)],
            _ => vec![(0, 3, 0), (soon, 4, 0), (soon, 3, 0), (soon, 0, CROSSING_BUTTON), (later, 0, 0)],
        }
    }

    /// One of the others.
    fn play(&mut self) -> Vec<Step> {
        let (soon, later) = (self.rng.within(1, 6), self.rng.within(7, 40));
        let limit = self.rng.pick(&[10, 11]);
        let other = self.rng.pick(&[1, 2, 3, 5, 6, 7]);
        let main_button = self.rng.pick(&[1, 2, 4]);
        let side_button = self.rng.pick(&[CROSSING_BUTTON, LIMIT_BUTTON]);
        match self.rng.pick(&[0, 0, 0, 1, 1, 1, 1, 1, 2, 2, 2, 2, 2, 3, 3, 3, 3, 3, 3, 4, 4, 5, 6, 6, 7, 7, 8, 8, 9, 9, 10]) {
            // A 9 or a 1 answered or missed, and again; a 1 displaced by a 1.
            0 => vec![(0, 3, 0), (soon, 9, 0), (soon, 0, side_button), (soon, 9, 0), (31, 0, 0)],
            1 => vec![(0, 3, 0), (soon, 9, 0), (31, 9, 0), (soon, 0, side_button)],
            2 => vec![(0, 3, 0), (soon, 1, 0), (soon, 0, side_button), (soon, 1, 0), (soon, 0, main_button)],
            3 => vec![(0, 3, 0), (soon, 1, 0), (31, 3, 0), (soon, 1, 0), (soon, 1, 0), (soon, 0, main_button)],
            // A stop, increased or not, then something else beside a crossing or a limit.
            4 => vec![(0, 0, OVERRIDE), (1, 8, 0), (soon, other, 0), (soon, limit, 0), (later, 3, 0), (later, 0, 0)],
            5 => vec![(0, limit, OVERRIDE), (1, 8, 0), (soon, 0, INCREASE), (soon, other, 0), (soon, 9, 0), (31, 3, 0), (later, 0, 0)],
            6 => vec![(0, 0, OVERRIDE), (1, 8, 0), (soon, 1, 0), (soon, 0, main_button), (soon, other, 0)],
            7 => vec![(0, 0, OVERRIDE), (1, 8, 0), (soon, 3, 0), (soon, other, 0), (soon, 3, 0), (200, 0, 0)],
            // A limit, again, with steps.
            8 => vec![(0, 3, 0), (1, limit, 0), (later, 0, INCREASE), (1, 0, INCREASE), (soon, 0, HIDE), (1, limit, 0)],
            9 => vec![(0, 3, 0), (soon, 9, 0), (soon, limit, 0), (later, 0, INCREASE), (soon, limit, 0), (soon, 9, 0)],
            _ => vec![(0, 7, 0), (soon, 7, 0), (later, other, 0), (soon, other, 0)],
        }
    }
}
