//! Main control and the two windows: document 01, "Controls", its first list points and the stop zone.

use crate::card::{ANNOUNCEMENT, BEFORE_STOP, CAUTION, CONDITIONAL_CLEAR, PREANNOUNCEMENT};
use crate::desk::{Alongside, Main, Offer, Reminder, Session, Window, METRE};

/// "age 30 is a miss"; the zone's window has its "miss at 40".
pub const MISS: i64 = 30;
pub const ZONE_MISS: i64 = 40;

/// The zone's window has "lamp and press from age 10".
pub const ZONE_LIT: i64 = 10;

/// "Beacon 1 waits for button 0, 1, 2 (rows 1, 2, 3), 5 (unprotected crossing) or 6 (limit). Beacon 9 waits for 5 or
/// 6; 10 and 11 set limit at once and wait for 6. 2, 5, 6, 7 wait for 3, 1, 2, 4."
pub fn waits_for(beacon: u8) -> &'static [u8] {
    match beacon {
        1 => &[0, 1, 2, 5, 6],
        2 => &[3],
        5 => &[1],
        6 => &[2],
        7 => &[4],
        9 => &[5, 6],
        10 | 11 => &[6],
        _ => &[],
    }
}

impl Window {
    /// Lit from its reading on; the stop zone's own window from age 10 (R 18).
    pub fn lit(&self) -> bool {
        !self.zone || self.age >= ZONE_LIT
    }

    /// "A right press at ages 1..29 answers"; in the zone "press from age 10". A missed window is closed already.
    fn answered_by(&self, button: u8) -> bool {
        self.age >= 1 && self.lit() && waits_for(self.beacon).contains(&button)
    }
}

impl Session {
    /// "Each new main control replaces the old and starts afresh." "When another main control except stop takes over,
    /// the stop limit stays alongside for ages 0..199" with the value it had (R 27). "A new main control cancels" the
    /// reminder.
    pub fn set_main(&mut self, control: Main, age: i64, distance: i64) {
        if self.main == Main::Stop && control != Main::Stop {
            self.alongside = Some(Alongside { age: 0, value: self.stop_value() });
        }
        self.main = control;
        self.main_age = age;
        self.main_distance = distance;
        self.increased = false;
        self.reminder = Reminder::No;
    }

    /// The answer of an open main window; closes it. "Controls set by an answer, miss or displacement keep the
    /// reading's age and distance." Answered by 5 or 6, beacon 1 leaves the main control alone (R 15).
    pub fn answer_main(&mut self, button: u8) -> bool {
        let Some(window) = self.main_window else { return false };
        if !window.answered_by(button) {
            return false;
        }
        self.main_window = None;
        if window.beacon == 1 {
            match button {
                0 => self.set_main(Main::Row(ANNOUNCEMENT), window.age, window.distance),
                1 => self.set_main(Main::Row(PREANNOUNCEMENT), window.age, window.distance),
                2 => self.set_main(Main::Row(CAUTION), window.age, window.distance),
                5 => self.set_unprotected(window.age, window.distance),
                _ => self.set_limit(window.age, true),
            }
        }
        true
    }

    /// The answer of an open side window; that of a 10 or 11 only closes it (R 22).
    pub fn answer_side(&mut self, button: u8) -> bool {
        let Some(window) = self.side_window else { return false };
        if !window.answered_by(button) {
            return false;
        }
        self.side_window = None;
        if window.beacon == 9 {
            match button {
                5 => self.set_unprotected(window.age, window.distance),
                _ => self.set_limit(window.age, true),
            }
        }
        true
    }

    /// "age 30 is a miss, even with a press: cause 1 main".
    pub fn miss_main_window(&mut self) {
        if let Some(window) = self.main_window {
            if window.left <= 0 {
                self.main_window = None;
                self.arises(1);
                self.count_as_announcement(window);
            }
        }
    }

    /// "cause 2 side".
    pub fn miss_side_window(&mut self) {
        if let Some(window) = self.side_window {
            if window.left <= 0 {
                self.side_window = None;
                self.arises(2);
                self.count_as_unprotected(window);
            }
        }
    }

    /// A missed or displaced "1 counts as announcement".
    fn count_as_announcement(&mut self, window: Window) {
        if window.beacon == 1 {
            self.set_main(Main::Row(ANNOUNCEMENT), window.age, window.distance);
        }
    }

    /// A missed or displaced "9 as unprotected crossing".
    fn count_as_unprotected(&mut self, window: Window) {
        if window.beacon == 9 {
            self.set_unprotected(window.age, window.distance);
        }
    }

    /// "A reading on an open window takes its place, pressed from the next sample to the older one's miss; a displaced
    /// 1 or 9 counts likewise, without cause, before the new reading acts. Beacons 3 and 8 displace the main window
    /// and open none (house)."
    pub fn read_main(&mut self, code: u8) {
        let displaced = self.main_window.take();
        if let Some(window) = displaced {
            self.count_as_announcement(window);
        }
        let zone = code == 7 && self.makes_stop_zone();
        self.set_main_by_reading(code, zone);
        if code == 3 || code == 8 {
            return;
        }
        let left = match displaced {
            // "its window alone starts afresh even over an open one, ... miss at 40".
            _ if zone => ZONE_MISS,
            Some(window) => window.left,
            None => MISS,
        };
        self.main_window = Some(Window { beacon: code, age: 0, distance: 0, left, zone });
    }

    /// "Main beacons 2, 5, 6, 7 set rows 0, 2, 3, 4 at once; 3 sets clear (no main limit); 8 sets stop". Beacon 1 sets
    /// nothing when read (R 15).
    fn set_main_by_reading(&mut self, code: u8, zone: bool) {
        match code {
            2 => self.set_main(Main::Row(CONDITIONAL_CLEAR), 0, 0),
            3 => {
                self.set_main(Main::Clear, 0, 0);
                self.offer_crossing();
            }
            5 => self.set_main(Main::Row(PREANNOUNCEMENT), 0, 0),
            6 => self.set_main(Main::Row(CAUTION), 0, 0),
            7 if zone => self.set_main(Main::Zone, 0, 0),
            7 => self.set_main(Main::Row(BEFORE_STOP), 0, 0),
            8 => self.read_stop(),
            _ => {}
        }
    }

    /// "Stop zone (function 1): beacon 7 read while row 4 is main and under 80 m from its reading sets 10 km/h". "A
    /// beacon 7 read in the zone sets row 4 anew": there row 4 is not main.
    fn makes_stop_zone(&self) -> bool {
        self.settings.function(1) && self.main == Main::Row(BEFORE_STOP) && self.main_distance < 80 * METRE
    }

    /// The side window's readings: a displaced 9 counts before the new reading acts; 10 and 11 set limit at once, or make a pair. "The
    /// second waits for 6 too: in an open side window's place, to that one's miss (a displaced 9 counts), else in a fresh window"
    /// (g14).
    pub fn read_side(&mut self, code: u8) {
        let displaced = self.side_window.take();
        if let Some(window) = displaced {
            self.count_as_unprotected(window);
        }
        if code == 10 || code == 11 {
            self.read_limit_beacon(code);
        }
        let left = displaced.map_or(MISS, |window| window.left);
        self.side_window = Some(Window { beacon: code, age: 0, distance: 0, left, zone: false });
    }

    /// Beacon 3's option: "With function 0"; "only a newer 3 or BTS ends it sooner".
    fn offer_crossing(&mut self) {
        if self.settings.function(0) {
            self.offer = Some(Offer { age: 0, distance: 0 });
        }
    }
}
