//! Supervised speed, brake and lamps: document 01, the end of "Controls".

use crate::desk::{Answer, Main, Reminder, Session, BTS};
use crate::windows::waits_for;

impl Session {
    /// The main control's limit; under clear there is none, nor in BTS. The stop zone "sets 10 km/h".
    pub fn main_value(&self) -> Option<i64> {
        match self.main {
            Main::Nothing | Main::Clear => None,
            Main::Row(row) => Some(self.settings.rows[row].at(self.main_age)),
            Main::Stop => Some(self.stop_value()),
            Main::Zone => Some(1000),
        }
    }

    /// "Supervised speed S, hundredths of km/h, is the least of vmax, T and standing controls; in BTS also BTS speed."
    pub fn supervised(&self) -> i64 {
        let mut s = (100 * self.settings.vmax as i64).min(100 * self.t());
        if let Some(value) = self.main_value() {
            s = s.min(value);
        }
        if let Some(alongside) = self.alongside {
            s = s.min(alongside.value);
        }
        if let Some(crossing) = self.crossing {
            s = s.min(self.crossing_value(crossing));
        }
        if let Some(limit) = self.limit {
            s = s.min(self.limit_value(limit));
        }
        // "they count as limit in S" (02 g).
        for (_, value, _) in self.paired_standing() {
            s = s.min(value);
        }
        if self.mode == BTS {
            s = s.min(100 * self.settings.bts as i64);
        }
        s
    }

    /// "Any cause puts the brake on; the first stands, lowest number within a sample. It goes off in a standstill
    /// sample with rearm, if on before and no cause arises." Standstill is that of 02 b. "The lowest cause of a sample
    /// stands: 300/12 is 5. On a braked desk 6 only keeps a rearm from working" (c6). The brake's age "is 0 when the brake
    /// comes on and at the rearm" (f8), and on a desk that stays unbraked; "later causes do not restart it" (f7).
    pub fn brake(&mut self) {
        let lowest = self.arisen.iter().copied().min().unwrap_or(0);
        if self.cause == 0 {
            self.cause = lowest;
            self.brake_age = 0;
        } else if self.standstill && self.rearm && lowest == 0 {
            self.cause = 0;
            self.brake_age = 0;
        }
    }

    /// "Lamps, bits as buttons: what a window waits for, beacon 3's option, override armed or reminded, increase for
    /// stop (ages 0..99, till used), 6 when limit is removable, 10 when braked at standstill." That is "braked after the
    /// brake step and at standstill, also with a fresh cause" (b7). "Each sample with code 12 lights lamp bit 11, the
    /// alarm" (02 c), "in both modes", and it "is dark in the next sample without 12" (c3). "Lamp 6: any may go, or a window
    /// waits." (g22)
    fn lamps(&self) -> u16 {
        let mut lamps = 0;
        for window in self.main_window.iter().chain(self.side_window.iter()) {
            if window.lit() {
                for button in waits_for(window.beacon) {
                    lamps |= 1 << button;
                }
            }
        }
        if self.offer.is_some() {
            lamps |= 1 << 5;
        }
        if self.armed.is_some() || matches!(self.reminder, Reminder::Lit { .. }) {
            lamps |= 1 << 7;
        }
        if self.stop_offers_increase() {
            lamps |= 1 << 8;
        }
        if !self.removable().is_empty() {
            lamps |= 1 << 6;
        }
        if self.cause != 0 && self.standstill {
            lamps |= 1 << 10;
        }
        if self.quiet() {
            lamps |= 1 << 11;
        }
        lamps
    }

    /// "crossing icon (0, 1 protected, 2 unprotected)".
    fn icon(&self) -> u8 {
        match self.crossing {
            Some(crossing) if !crossing.protected => 2,
            Some(crossing) if crossing.shown => 1,
            _ => 0,
        }
    }

    /// "The answer is S, lamps, cause (0 none), crossing icon ..., limit standing or not", at the end of the sample
    /// (R 45).
    pub fn answer(&self) -> Answer {
        Answer { s: self.s, lamps: self.lamps(), cause: self.cause, icon: self.icon(), limit: self.limit_stands() }
    }
}
