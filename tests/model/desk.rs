//! The session and the order of a sample: document 01, "The sample", with standstill as document 02 b has it,
//! the quiet pickup as 02 c, the brake's age as 02 f and the version and the pairs as 02 g have them.

use crate::card::{self, Refusal, Settings, START};

/// "mode 1 CONV or 2 BTS".
pub const CONV: u8 = 1;
pub const BTS: u8 = 2;

/// "Ages count samples from the sample that starts them (age 0) and stop at 30,000; distances stop at 60,000,000."
pub const AGE_TOP: i64 = 30_000;
pub const DISTANCE_TOP: i64 = 60_000_000;

/// "standstill is ten accepted samples running without pulses, this one included" (02 b).
pub const STANDING: i64 = 10;

/// "The classifier's answer "nothing" becomes code 12 and no longer code 0" (02 c).
pub const QUIET: u8 = 12;

/// "outside BTS raises cause 6 as well" (02 c).
pub const QUIET_CAUSE: u8 = 6;

/// "Ranges: code 0..12, cause 0..6." (c7)
pub const CODE_TOP: u8 = QUIET;
pub const CAUSE_TOP: u8 = QUIET_CAUSE;

/// A metre in the travel's unit, tenths of a millimetre.
pub const METRE: i64 = 10_000;

/// What stands as main control. Nothing is BTS; clear is "no main limit".
#[derive(Clone, Copy, PartialEq, Debug)]
pub enum Main {
    Nothing,
    Clear,
    Row(usize),
    Stop,
    Zone,
}

/// An open window: the beacon read, that reading's own age and distance, the samples left to its miss, which a
/// displacing reading inherits (R 16), and whether it is the stop zone's.
#[derive(Clone, Copy, PartialEq, Debug)]
pub struct Window {
    pub beacon: u8,
    pub age: i64,
    pub distance: i64,
    pub left: i64,
    pub zone: bool,
}

/// Beacon 3's option.
#[derive(Clone, Copy, PartialEq, Debug)]
pub struct Offer {
    pub age: i64,
    pub distance: i64,
}

#[derive(Clone, Copy, PartialEq, Debug)]
pub struct Crossing {
    pub protected: bool,
    pub age: i64,
    pub distance: i64,
    pub shown: bool,
}

/// The single limit: row 6.
#[derive(Clone, Copy, PartialEq, Debug)]
pub struct Limit {
    pub age: i64,
    pub steps: i64,
    /// Whether an answered 1 or 9 last set it, and not a 10 or 11 (g26).
    pub answered: bool,
}

/// "The first is the last 10 or 11 read that is in no pair." (g8) Its code, the distance from it, and whether the single limit is
/// its own: none stood as it was read, "and nothing else has set it since" (g15).
#[derive(Clone, Copy, PartialEq, Debug)]
pub struct First {
    pub code: u8,
    pub distance: i64,
    pub own: bool,
}

/// "the stop limit stays alongside": its own age, and the value it had (R 27).
#[derive(Clone, Copy, PartialEq, Debug)]
pub struct Alongside {
    pub age: i64,
    pub value: i64,
}

/// The reminder of the stop that is main.
#[derive(Clone, Copy, PartialEq, Debug)]
pub enum Reminder {
    No,
    Waits,
    Lit { second: bool, age: i64 },
    Pressed { samples: i64, distance: i64 },
}

/// "pulses (u16), beacon 0..11, buttons newly pressed (bits 0..10), mode 1 CONV or 2 BTS"; the beacon 0..12 (c7).
#[derive(Clone, Copy, PartialEq, Debug, Default)]
pub struct Sample {
    pub pulses: u16,
    pub beacon: u8,
    pub buttons: u16,
    pub mode: u8,
}

/// "The answer is S, lamps, cause (0 none), crossing icon (0, 1 protected, 2 unprotected), limit standing or not."
#[derive(Clone, Copy, PartialEq, Debug)]
pub struct Answer {
    pub s: i64,
    pub lamps: u16,
    pub cause: u8,
    pub icon: u8,
    pub limit: bool,
}

#[derive(Clone, Debug)]
pub struct Session {
    /// "The session holds the version" (g5).
    pub version: u8,
    pub settings: Settings,
    pub train: u8,
    pub mode: u8,
    pub cause: u8,
    /// "The session gains the age of the brake, stopping at 30,000." (02 f) 0 when it is off (f7).
    pub brake_age: i64,
    pub last_code: u8,
    /// "The session gains a count" (02 b): the accepted samples running without pulses.
    pub stood: i64,
    pub main: Main,
    pub main_age: i64,
    pub main_distance: i64,
    pub increased: bool,
    pub alongside: Option<Alongside>,
    pub armed: Option<i64>,
    pub reminder: Reminder,
    pub main_window: Option<Window>,
    pub side_window: Option<Window>,
    pub offer: Option<Offer>,
    pub crossing: Option<Crossing>,
    pub limit: Option<Limit>,
    /// The ages of the paired limits that stand, in the order of their speeds, 30, 40, 50, 70 km/h.
    pub paired: [Option<i64>; 4],
    pub first: Option<First>,
    // This sample's own: m, whether it is a standstill, the causes that arose in it, rearm pressed, S.
    pub m: i64,
    pub standstill: bool,
    pub arisen: Vec<u8>,
    pub rearm: bool,
    pub s: i64,
}

/// "T for types 1..8: 80, 90, 100, 120, 140, 160, 180, 200 km/h (001)."
pub fn train_speed(train: u8) -> i64 {
    [80, 90, 100, 120, 140, 160, 180, 200][train as usize - 1]
}

/// "Compare exactly: m exceeds h hundredths of km/h when 9m > 25h."
pub fn exceeds(m: i64, h: i64) -> bool {
    9 * m > 25 * h
}

/// m is below h hundredths of km/h, as exactly.
pub fn below(m: i64, h: i64) -> bool {
    9 * m < 25 * h
}

pub fn older(age: i64) -> i64 {
    (age + 1).min(AGE_TOP)
}

impl Session {
    /// "Opening(version, settings, type): 2, 5, 7." (g4) 7 is "train type not 1..8, or faster than vmax". "It opens in CONV with the
    /// start row as main (age 1 in the first sample), last code 0." "a newly opened session counts as standing" (02 b): "It opens at
    /// 10" (b2).
    pub fn open(version: u8, settings: Settings, train: u8) -> Result<Session, Refusal> {
        card::judge(version, &settings)?;
        if train < 1 || train > 8 || train_speed(train) > settings.vmax as i64 {
            return Err(card::refused(7));
        }
        Ok(Session {
            version,
            settings,
            train,
            mode: CONV,
            cause: 0,
            brake_age: 0,
            last_code: 0,
            stood: STANDING,
            main: Main::Row(START),
            main_age: 0,
            main_distance: 0,
            increased: false,
            alongside: None,
            armed: None,
            reminder: Reminder::No,
            main_window: None,
            side_window: None,
            offer: None,
            crossing: None,
            limit: None,
            paired: [None; 4],
            first: None,
            m: 0,
            standstill: true,
            arisen: Vec::new(),
            rearm: false,
            s: 0,
        })
    }

    /// T, in km/h.
    pub fn t(&self) -> i64 {
        train_speed(self.train)
    }

    /// "An accepted sample with pulses makes the count 0." (b1) One without adds one; "The count stops at 30,000" (b5).
    pub fn stood_with(&self, sample: &Sample) -> i64 {
        if sample.pulses != 0 { 0 } else { older(self.stood) }
    }

    /// "Standstill: no pulses, and the count with this sample is 10 or more." (b1) "Rearm, its lamp and the mode change
    /// all use it" (02 b), and nothing else does (b6).
    pub fn stands_in(&self, sample: &Sample) -> bool {
        sample.pulses == 0 && self.stood_with(sample) >= STANDING
    }

    /// "cause ... in range" (R 46) and the brake's age, "range 0..30,000" (f8), each judged alone. Nothing that makes a session
    /// here can put anything else out of its ranges but a limit's steps, which replay.rs judges.
    fn brake_in_range(&self) -> bool {
        self.cause <= CAUSE_TOP && self.brake_age <= AGE_TOP
    }

    /// "sample 8, 9, 10, 11"; "every session we make is inside", save by a case that says otherwise. 11: mode changed "while
    /// not at standstill" (02 b). "9 from code 13" (02 c); "No button 11: buttons above 2047 stay 9." (c7)
    fn refusal(&self, sample: &Sample) -> Option<u8> {
        if !self.brake_in_range() {
            return Some(8);
        }
        if sample.beacon > CODE_TOP || sample.buttons > 0b111_1111_1111 || (sample.mode != CONV && sample.mode != BTS) {
            return Some(9);
        }
        if sample.pulses as i64 * self.settings.tick as i64 > 100_000 {
            return Some(10);
        }
        if sample.mode != self.mode && !self.stands_in(sample) {
            return Some(11);
        }
        None
    }

    /// "Order in a sample: mode; ages and distances advance, endings, reminders and missed windows; buttons, lowest
    /// bit first; beacon; speed; brake." A refused sample changes nothing (R 14): it "neither counts nor breaks the run"
    /// (b4).
    pub fn sample(&mut self, sample: Sample) -> Result<Answer, u8> {
        if let Some(number) = self.refusal(&sample) {
            return Err(number);
        }
        self.m = sample.pulses as i64 * self.settings.tick as i64;
        self.standstill = self.stands_in(&sample);
        self.stood = self.stood_with(&sample);
        self.arisen.clear();
        self.rearm = false;
        let left_bts = self.change_mode(sample.mode);
        self.advance();
        if left_bts {
            // "What a sample starts has age 0 in that sample, in whichever step it starts." (R 9)
            self.main_age = 0;
            self.main_distance = 0;
        }
        self.end_what_ends();
        self.light_or_miss_reminder();
        self.miss_main_window();
        self.miss_side_window();
        for bit in 0..=10 {
            if sample.buttons >> bit & 1 == 1 {
                self.press(bit);
            }
        }
        self.beacon(sample.beacon);
        self.raise_quiet();
        self.turn_protected();
        self.s = self.supervised();
        if exceeds(self.m, self.s + 500) {
            self.arises(5);
        }
        self.brake();
        Ok(self.answer())
    }

    /// A cause arises in this sample.
    pub fn arises(&mut self, cause: u8) {
        self.arisen.push(cause);
    }

    /// "BTS: entering drops all controls, windows and armed override; leaving drops them and sets start." Brake,
    /// cause and last code survive (R 42), and "a mode change leaves the count alone" (b4). "a mode change parts" a pair (02 g), and
    /// "Until j a mode change drops paired limits too." (g28) True when BTS was left.
    fn change_mode(&mut self, mode: u8) -> bool {
        if mode == self.mode {
            return false;
        }
        self.mode = mode;
        self.main = if mode == BTS { Main::Nothing } else { Main::Row(START) };
        self.main_age = 0;
        self.main_distance = 0;
        self.increased = false;
        self.alongside = None;
        self.armed = None;
        self.reminder = Reminder::No;
        self.main_window = None;
        self.side_window = None;
        self.offer = None;
        self.crossing = None;
        self.limit = None;
        self.paired = [None; 4];
        self.first = None;
        mode == CONV
    }

    /// "A press serves one use: main, then side, then others."
    fn press(&mut self, button: u8) {
        if self.answer_main(button) || self.answer_side(button) {
            return;
        }
        match button {
            5 => self.take_offer(),
            6 => self.remove_limit(),
            7 => self.press_override(),
            8 => self.press_increase(),
            9 => self.hide_step(),
            10 => self.rearm = true,
            _ => {}
        }
    }

    /// "A beacon is read when its code differs from that of the accepted sample before, of either mode, read or not."
    /// In BTS "Beacons are not read save function 3's": 4, 9, 10, 11. "Code 12 is no beacon, yet the code after it
    /// counts as changed" (02 c): "12 becomes the last code in either mode ... Else it reads, sets, displaces, ends,
    /// parts and speaks nothing." (c5)
    fn beacon(&mut self, code: u8) {
        let before = self.last_code;
        self.last_code = code;
        if code == 0 || code == QUIET || code == before {
            return;
        }
        if self.mode == BTS && !(self.settings.function(3) && [4, 9, 10, 11].contains(&code)) {
            return;
        }
        match code {
            4 => self.read_4(),
            9 | 10 | 11 => self.read_side(code),
            _ => self.read_main(code),
        }
    }

    /// Whether this sample has code 12: the last code is its own once the beacon step is done.
    pub fn quiet(&self) -> bool {
        self.last_code == QUIET
    }

    /// "Each sample with code 12 ... outside BTS raises cause 6 as well" (02 c), "not only the first" (c2). "The mode
    /// after the mode step decides: entering BTS with 12 raises nothing, leaving with 12 raises 6. Function 3 does not
    /// matter." (c4)
    fn raise_quiet(&mut self) {
        if self.quiet() && self.mode != BTS {
            self.arises(QUIET_CAUSE);
        }
    }
}
