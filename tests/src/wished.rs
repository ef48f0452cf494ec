//! Stations made to wished figures.

use crate::constants::{Staffs, NOMINAL};
use crate::fraction::narrow;
use crate::plain::Call;
use crate::random::Random;

/// The largest height that `station_of` gives a station, in half mm either way.
pub const STEEPEST: i64 = 5_980;

/// The figures a station is to have: what the constants are, the back staff's nominal one, back
/// and fore sight (dm, 2 to 3,000), back and fore e (mm), and twice the height (half mm); with
/// measured constants e and the height in a tenth of that.
#[derive(Clone, Debug)]
pub struct Wish {
    pub staffs: Staffs,
    pub back_k: i64,
    pub sights: [i64; 2],
    pub faces: [i64; 2],
    pub twice: i64,
}

/// The constant of the other staff.
pub fn other_staff(constant: i64) -> i64 {
    NOMINAL[0] + NOMINAL[1] - constant
}

/// The parts of a mm that these constants are in, and the constant of a staff in them.
pub fn in_parts(staffs: Staffs, name: i64) -> (i64, i64) {
    (narrow(staffs.parts()), narrow(staffs.constant(name)))
}

/// The largest e of a staff that is not above this one: readings are whole mm, so its tenths are
/// those of the constant.
pub fn largest_e(staffs: Staffs, name: i64, most: i64) -> i64 {
    let (parts, constant) = in_parts(staffs, name);
    most - (most - constant).rem_euclid(parts)
}

/// The least e of a staff that is not below this one.
pub fn least_e(staffs: Staffs, name: i64, least: i64) -> i64 {
    largest_e(staffs, name, least + in_parts(staffs, name).0 - 1)
}

/// The largest twice-height that is not above this one and that a station with this back staff
/// can have.
pub fn largest_twice(staffs: Staffs, back_k: i64, most: i64) -> i64 {
    let (parts, back) = in_parts(staffs, back_k);
    let (_, fore) = in_parts(staffs, other_staff(back_k));
    most - (most + back - fore).rem_euclid(parts)
}

/// A station with these figures. Twice the height is 2 (m back - m fore) less
/// the faces' difference, so it is met only where the parities allow it;
/// otherwise it comes out one half mm lower, with measured constants up to one mm.
pub fn station_of(random: &mut Random, wish: &Wish) -> Call {
    let [back_e, fore_e] = wish.faces;
    let fore_k = other_staff(wish.back_k);
    let (parts, back) = in_parts(wish.staffs, wish.back_k);
    let (_, fore) = in_parts(wish.staffs, fore_k);
    let rise = (wish.twice + back_e - fore_e).div_euclid(2 * parts).clamp(-2_998, 2_998);
    let fore_m = random.between((1 - rise).max(1), (2_999 - rise).min(2_999));
    let back_m = fore_m + rise;
    let faces = [(back - back_e).div_euclid(parts), (fore - fore_e).div_euclid(parts)];
    Call::Station {
        back_k: wish.back_k,
        fore_k,
        readings: [
            staff(random, wish.sights[0], back_m, faces[0]),
            staff(random, wish.sights[1], fore_m, faces[1]),
        ],
    }
}

/// Readings u, l, m, r of a staff: l < m < u, u - l the sight, r - m as given.
fn staff(random: &mut Random, sight: i64, m: i64, more: i64) -> [i64; 4] {
    let lowest = (m + 1 - sight).max(0);
    let highest = (m - 1).min(3_000 - sight);
    let l = random.between(lowest, highest);
    [l + sight, l, m, m + more]
}

/// A pair of e that lets `station_of` meet this height, which such a station can have, within
/// these limits (document 01's table, in mm), at the limits now and then.
pub fn faces(random: &mut Random, (staffs, back_k): (Staffs, i64), limit: i64, apart: i64, twice: i64) -> [i64; 2] {
    let names = [back_k, other_staff(back_k)];
    let (parts, _) = in_parts(staffs, back_k);
    loop {
        let pair = match random.below(6) {
            0 => [random.sign(limit), random.between(-limit, limit)],
            1 => {
                let back = random.between(apart - limit, limit);
                let turn = random.sign(1);
                [turn * back, turn * (back - apart)]
            }
            2 => [0, random.between(-1, 1)],
            _ => [random.between(-limit, limit), random.between(-limit, limit)],
        };
        let up = parts > 1 && random.chance(1, 2);
        let [back, fore] = [0, 1].map(|side| {
            let near = if up { least_e } else { largest_e };
            near(staffs, names[side], parts * pair[side])
        });
        let within = back.abs().max(fore.abs()) <= parts * limit;
        let fits = within && (back - fore).abs() <= parts * apart;
        if fits && (twice + back - fore) % (2 * parts) == 0 {
            return [back, fore];
        }
    }
}
