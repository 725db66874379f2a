//! Limit beacons in pairs: document 02 g), as its readings g8 to g28 have it.

use crate::card::PAIR_SPEEDS;
use crate::desk::{below, First, Session, METRE};

/// A standing limit that button 6 may take off: "counted as limit".
#[derive(Clone, Copy, PartialEq, Debug)]
pub enum Which {
    /// By its place among the four speeds.
    Paired(usize),
    Single,
}

/// "the speeds for pairs 10-10, 10-11, 11-10, 11-11": the pair's place among them.
pub fn kind(first: u8, second: u8) -> usize {
    2 * (first - 10) as usize + (second - 10) as usize
}

impl Session {
    /// A 10 or 11 that is read. Making a pair is "version 3 only". "The next read at 10,000 × byte 48 or less makes the pair; one
    /// further off is itself the first" (g8).
    pub fn read_limit_beacon(&mut self, code: u8) {
        let most = METRE * self.settings.distance as i64;
        match self.first {
            _ if self.version != 3 => self.set_limit(0, false),
            Some(first) if first.distance <= most => self.make_pair(first, code),
            _ => self.read_first(code),
        }
    }

    /// "A first acts as 01's 10 or 11: single limit at once (a repeat: steps 0, age kept)" (g12). "Standing paired limits are not
    /// "one"." (g15)
    fn read_first(&mut self, code: u8) {
        let own = self.limit.is_none();
        self.set_limit(0, false);
        self.first = Some(First { code, distance: 0, own });
    }

    /// "a beacon belongs to one pair only"; "the second sets no single limit, and the first's is dropped, unless one stood before it"
    /// (02 g). "The first's limit is dropped when no single limit stood as the first was read and nothing else has set it since."
    /// (g15) "One for each speed, not each kind ... Set again its age is 0." (g21)
    fn make_pair(&mut self, first: First, code: u8) {
        self.first = None;
        if first.own {
            self.limit = None;
        }
        let speed = self.settings.pairs[kind(first.code, code)];
        // The speeds of a session in its ranges are among the four.
        if let Some(which) = PAIR_SPEEDS.iter().position(|one| *one == speed) {
            self.paired[which] = Some(0);
        }
    }

    /// "each min(T, its speed)": "Value min(T, speed) from age 0: no curve, no steps." (g20)
    pub fn paired_value(&self, which: usize) -> i64 {
        100 * self.t().min(PAIR_SPEEDS[which] as i64)
    }

    /// Those that stand: which, value, age.
    pub fn paired_standing(&self) -> Vec<(usize, i64, i64)> {
        let ages = self.paired.iter().enumerate();
        ages.filter_map(|(which, age)| age.map(|age| (which, self.paired_value(which), age))).collect()
    }

    /// "A paired one may go when 9m < 25 × its value; the single by R39." (g22) Each with its final value.
    pub fn removable(&self) -> Vec<(i64, Which)> {
        let paired = self.paired_standing().into_iter().map(|(which, value, _)| (value, Which::Paired(which)));
        let single = self.limit.map(|limit| (self.limit_final(limit), Which::Single));
        paired.chain(single).filter(|(value, _)| below(self.m, *value)).collect()
    }

    /// "The limit button takes off the lowest that may go (paired first)" (02 g): "of those that may go the lowest by final value (the
    /// single's with steps), even while its row is higher" (g23). ""Paired first" is among equal values only; then the lower
    /// speed." (g24) They come in that order, and the first of the least is taken.
    pub fn remove_limit(&mut self) {
        match self.removable().into_iter().min_by_key(|(value, _)| *value) {
            Some((_, Which::Paired(which))) => self.paired[which] = None,
            Some((_, Which::Single)) => self.limit = None,
            None => {}
        }
    }

    /// "The answer's limit: any stands." (g22)
    pub fn limit_stands(&self) -> bool {
        self.limit.is_some() || self.paired.iter().any(Option::is_some)
    }
}
