//! What goes wrong in the field: stations at and one beyond each limit, runs and
//! closings that are not due, calls out of place.

use crate::mutate::any_call;
use crate::opening::opening_call;
use crate::caller::{Goal, Caller};
use crate::plain::{Call, Opened};
use crate::rules::Class;
use crate::wished::{in_parts, largest_e, least_e, other_staff, station_of, Wish};
use crate::station::{BLACK, LOWER, RED, UPPER};

impl Caller<'_> {
    /// Whether something goes wrong now.
    pub fn mistaken(&mut self) -> bool {
        self.style.trouble != 0 && self.random.chance(1, self.style.trouble)
    }

    /// Makes a call other than a good station.
    pub fn trouble(&mut self, goal: &Goal) {
        let call = match self.random.below(60) {
            0..=3 => Call::EndRun(self.doubtful_number()),
            4 => Call::DropRun,
            5 => Call::DropSection,
            6 => self.doubtful_opening(),
            7..=9 => self.doubtful_closing(),
            10..=11 => any_call(self.random),
            12 => self.doubtful_collimation(),
            13 => self.doubtful_constants(),
            14 => Call::LiftSection,
            15..=29 => self.station_at_a_limit(goal),
            _ => self.spoilt_station(goal),
        };
        self.put(call);
    }

    /// A number that may be on the line, the right one, or out of range.
    pub fn doubtful_number(&mut self) -> i64 {
        let opened = self.opened();
        let begin = self.reading.section_begin(opened.start);
        match self.random.below(8) {
            0 => 0,
            1 => 10_000,
            2 => opened.start,
            3 => begin,
            4 => begin + 1,
            5 if !self.reading.sections.is_empty() => {
                self.random.pick(&self.reading.sections).number
            }
            _ => self.random.between(1, 9_999),
        }
    }

    /// A height that is anything, in range or one beyond it.
    pub fn doubtful_height(&mut self) -> i64 {
        let opened = self.opened();
        match self.random.below(8) {
            0 => -1_000_000,
            1 => 9_000_000,
            2 => -999_999,
            3 => 8_999_999,
            4 => opened.height,
            5 => opened.height + self.random.between(-20, 20),
            _ => self.random.between(-999_999, 8_999_999),
        }
    }

    /// Of a line or of a spur, one in three the other than what is open.
    pub fn doubtful_closing(&mut self) -> Call {
        let number = self.doubtful_number();
        let other = self.random.chance(1, 3);
        if (self.class() == Class::Spur) != other {
            Call::CloseSpur(number)
        } else {
            Call::CloseLine { number, height: self.doubtful_height() }
        }
    }

    /// An opening, one in three of any class, one in three with a print unit that there is not.
    pub fn doubtful_opening(&mut self) -> Call {
        let any = *self.random.pick(&Class::ALL);
        let class = if self.random.chance(1, 3) { any } else { self.style.class };
        let mut opened = self.opening_values();
        if self.random.chance(1, 3) {
            opened.prints = self.no_print_unit();
        }
        opening_call(class, opened)
    }

    /// A print unit that there is not.
    pub fn no_print_unit(&mut self) -> i64 {
        *self.random.pick(&[0, 2, 9, 11, 100, -1, -10])
    }

    /// What the line may be opened with: its order, numbers and heights at their limits
    /// now and then, one in two in tenths.
    pub fn opening_values(&mut self) -> Opened {
        let start = match self.random.below(20) {
            0 => 1,
            1 => 9_999,
            _ => self.random.between(1, 9_999),
        };
        let height = match self.random.below(20) {
            0 => -999_999,
            1 => 8_999_999,
            2..=4 => self.random.between(-3_000, 3_000),
            _ => self.random.between(-100_000, 5_000_000),
        };
        let (order, instrument) = (self.style.class.order(), self.style.instrument);
        Opened { order, instrument, start, height, prints: *self.random.pick(&[1, 10]) }
    }

    /// A station with one of its figures at its limit.
    fn station_at_a_limit(&mut self, goal: &Goal) -> Call {
        let mut wish = self.good_wish(goal);
        let which = self.random.below(5);
        self.press(&mut wish, which, 0);
        station_of(self.random, &wish)
    }

    /// A station with one to three things wrong, mostly one.
    fn spoilt_station(&mut self, goal: &Goal) -> Call {
        let mut wish = self.good_wish(goal);
        let things = *self.random.pick(&[1, 1, 1, 1, 2, 2, 3]);
        let mut kinds: Vec<u64> = (0..things).map(|_| self.random.below(9)).collect();
        kinds.sort_unstable();
        for &kind in kinds.iter().filter(|&&kind| kind <= 5) {
            if kind == 5 {
                wish.back_k = other_staff(wish.back_k);
            } else {
                self.press(&mut wish, kind, 1);
            }
        }
        let mut call = station_of(self.random, &wish);
        for &kind in kinds.iter().filter(|&&kind| kind > 5) {
            self.misread(&mut call, kind);
        }
        call
    }

    /// Moves one figure of a wish to its limit, or `beyond` it.
    fn press(&mut self, wish: &mut Wish, which: u64, beyond: i64) {
        let table = self.table();
        let side = self.random.below(2) as usize;
        match which {
            0 => {
                let near = self.random.between(0, table.d - 1);
                wish.sights[side] = table.sight + beyond;
                wish.sights[1 - side] = table.sight - near;
            }
            1 => self.set_d(wish, (table.d + beyond) * [1, -1][side]),
            2 => {
                let wanted = (table.accumulated + beyond) * [1, -1][side];
                let d = (wanted - self.accumulated()).clamp(-table.d, table.d);
                self.set_d(wish, d);
            }
            3 => self.press_e(wish, side, beyond),
            _ => self.press_faces(wish, side, beyond),
        }
    }

    /// The staff's e nearest to its limit, within or the next one beyond; the other staff's has the same sign.
    fn press_e(&mut self, wish: &mut Wish, side: usize, beyond: i64) {
        let most = self.table().e;
        let parts = self.parts();
        let names = [wish.back_k, other_staff(wish.back_k)];
        let turn = self.random.sign(1);
        let near = if turn > 0 { largest_e } else { least_e };
        wish.faces[side] = near(wish.staffs, names[side], turn * parts * most) + turn * parts * beyond;
        let other = self.random.between(0, most);
        wish.faces[1 - side] = near(wish.staffs, names[1 - side], turn * parts * other);
    }

    /// The faces' difference nearest to its limit, within or the next one beyond; this side has the larger e.
    fn press_faces(&mut self, wish: &mut Wish, side: usize, beyond: i64) {
        let table = self.table();
        let names = [wish.back_k, other_staff(wish.back_k)];
        let (parts, here) = in_parts(wish.staffs, names[side]);
        let (_, there) = in_parts(wish.staffs, names[1 - side]);
        let most = parts * table.faces;
        let apart = most - (most - (here - there)).rem_euclid(parts) + parts * beyond;
        let e = self.random.between(table.faces + beyond - table.e, table.e);
        wish.faces[side] = largest_e(wish.staffs, names[side], parts * e);
        wish.faces[1 - side] = wish.faces[side] - apart;
    }

    /// Sights with this d, within the sight limit.
    fn set_d(&mut self, wish: &mut Wish, d: i64) {
        let most = self.table().sight;
        let short = self.random.between(2, (most - d.abs()).min(2 * self.style.sight).max(2));
        wish.sights = [short + d.max(0), short + (-d).max(0)];
    }

    /// A reading out of range (6), wrong constants (7) or wrong threads (8).
    fn misread(&mut self, call: &mut Call, kind: u64) {
        let Call::Station { back_k, fore_k, readings } = call else { return };
        let staff = &mut readings[self.random.below(2) as usize];
        match kind {
            6 => {
                let place = *self.random.pick(&[UPPER, LOWER, BLACK, RED]);
                let most = if place == RED { 7_999 } else { 3_000 };
                staff[place] = *self.random.pick(&[-1, 0, most, most + 1]);
            }
            7 => match self.random.below(5) {
                0 => *back_k = *fore_k,
                1 => *fore_k = *back_k,
                2 => *back_k += self.random.between(-1, 1),
                3 => [back_k, fore_k].into_iter().for_each(|one| *one *= 10), // in tenths, as KON has them
                _ => *fore_k = *self.random.pick(&[0, 4_687, 4_787, 4_737]),
            },
            _ => match self.random.below(4) {
                0 => staff.swap(UPPER, LOWER),
                1 => staff[BLACK] = staff[LOWER],
                2 => staff[BLACK] = staff[UPPER],
                _ => staff[UPPER] = staff[LOWER],
            },
        }
    }
}
