//! The sample's second step: document 01, "ages and distances advance, endings".

use crate::desk::{older, Reminder, Session, DISTANCE_TOP, METRE};

impl Session {
    /// "ages and distances advance": m is "the travel in tenths of a millimetre".
    pub fn advance(&mut self) {
        let m = self.m;
        let farther = |distance: i64| (distance + m).min(DISTANCE_TOP);
        // "The brake's age advances with the others" (f8), in a sample that changes the mode too.
        self.brake_age = older(self.brake_age);
        self.main_age = older(self.main_age);
        self.main_distance = farther(self.main_distance);
        if let Some(alongside) = &mut self.alongside {
            alongside.age = older(alongside.age);
        }
        if let Some(age) = &mut self.armed {
            *age = older(*age);
        }
        for window in self.main_window.iter_mut().chain(self.side_window.iter_mut()) {
            window.age = older(window.age);
            window.distance = farther(window.distance);
            window.left -= 1;
        }
        if let Some(offer) = &mut self.offer {
            offer.age = older(offer.age);
            offer.distance = farther(offer.distance);
        }
        if let Some(crossing) = &mut self.crossing {
            crossing.age = older(crossing.age);
            crossing.distance = farther(crossing.distance);
        }
        if let Some(limit) = &mut self.limit {
            limit.age = older(limit.age);
        }
        for age in self.paired.iter_mut().flatten() {
            *age = older(*age);
        }
        // "Distance by R10: 0 in the first's sample, the second's own m counted." (g9)
        if let Some(first) = &mut self.first {
            first.distance = farther(first.distance);
        }
        match &mut self.reminder {
            Reminder::Lit { age, .. } => *age = older(*age),
            // "X samples past the press at 5 km/h or more": 9m ≥ 12,500 (R 30).
            Reminder::Pressed { samples, distance } => {
                if 9 * m >= 12_500 {
                    *samples = older(*samples);
                }
                *distance = farther(*distance);
            }
            Reminder::No | Reminder::Waits => {}
        }
    }

    /// Endings and the protected icon, in the second step (R 11): crossing "ends at 1,800 m"; stop alongside "for
    /// ages 0..199"; override "for ages 0..99"; beacon 3's option "at ages 1..29"; icon "35 m after beacon 4".
    /// "Distances (80 m aside) count as reached at that distance or more."
    pub fn end_what_ends(&mut self) {
        if self.crossing.is_some_and(|crossing| crossing.distance >= 1_800 * METRE) {
            self.crossing = None;
        }
        if self.alongside.is_some_and(|alongside| alongside.age >= 200) {
            self.alongside = None;
        }
        if self.armed.is_some_and(|age| age >= 100) {
            self.armed = None;
        }
        if self.offer.is_some_and(|offer| offer.age >= 30) {
            self.offer = None;
        }
        if let Some(crossing) = &mut self.crossing {
            if crossing.protected && crossing.distance >= 35 * METRE {
                crossing.shown = true;
            }
        }
    }
}
