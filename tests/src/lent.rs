//! Random arguments for the adjustment standing alone (document 01, "Closure,
//! corrections, heights").

use crate::random::Random;

/// Arguments of an adjustment: known heights, print unit, Q and R of the sections,
/// and the places of the height list.
#[derive(Clone, Debug, PartialEq, Eq)]
pub struct Lent {
    pub start: i64,
    pub end: i64,
    pub prints: i64,
    pub sections: Vec<(i64, i64)>,
    pub places: usize,
}

/// Sound arguments: one to 64 sections of any Q and R in range; one in three
/// with equal R and a small W, so that heights fall on ties.
pub fn sound(random: &mut Random) -> Lent {
    let count = *random.pick(&[1, 2, 2, 3, 4, 8, 16, 63, 64]);
    let start = height(random);
    let prints = *random.pick(&[1, 10]);
    let places = count + random.below(3) as usize;
    if random.chance(1, 3) {
        let r = random.between(1, 1_000);
        let sections: Vec<_> = (0..count).map(|_| (random.between(-9, 9), r)).collect();
        let sum: i64 = sections.iter().map(|one| one.0).sum();
        let end = start + sum.div_euclid(4) + random.between(-3, 3);
        return Lent { start, end: end.clamp(-999_999, 8_999_999), prints, sections, places };
    }
    let sections = (0..count).map(|_| (any_q(random), any_r(random))).collect();
    Lent { start, end: height(random), prints, sections, places }
}

/// Arguments of any kind: one in two with something wrong, often several things.
pub fn any(random: &mut Random) -> Lent {
    let mut lent = sound(random);
    if random.chance(1, 2) {
        return lent;
    }
    for _ in 0..=random.below(3) {
        match random.below(7) {
            0 => lent.sections.clear(),
            1 => lent.sections.resize(65 + random.below(3) as usize, (0, 1)),
            2 => lent.places = random.below(lent.sections.len() as u64 + 1) as usize,
            3 => lent.start = *random.pick(&[-1_000_000, 9_000_000, i64::MIN, i64::MAX]),
            4 => lent.end = *random.pick(&[-1_000_000, 9_000_000, i64::MIN, i64::MAX]),
            5 => lent.prints = *random.pick(&[0, 2, 9, 11, 100, -1, -10, i64::MIN, i64::MAX]),
            _ => spoil_section(random, &mut lent.sections),
        }
    }
    lent
}

fn spoil_section(random: &mut Random, sections: &mut [(i64, i64)]) {
    if sections.is_empty() {
        return;
    }
    let which = random.below(sections.len() as u64) as usize;
    if random.chance(1, 2) {
        sections[which].0 = *random.pick(&[2_500_001, -2_500_001, i64::MIN, i64::MAX]);
    } else {
        sections[which].1 = *random.pick(&[0, -1, 1_200_001, i64::MIN, i64::MAX]);
    }
}

fn height(random: &mut Random) -> i64 {
    match random.below(6) {
        0 => -999_999,
        1 => 8_999_999,
        2 => random.between(-20, 20),
        _ => random.between(-999_999, 8_999_999),
    }
}

fn any_q(random: &mut Random) -> i64 {
    match random.below(3) {
        0 => random.between(-10, 10),
        1 => random.between(-2_500_000, 2_500_000),
        _ => *random.pick(&[0, -2_500_000, 2_500_000]),
    }
}

fn any_r(random: &mut Random) -> i64 {
    match random.below(3) {
        0 => random.between(1, 10),
        1 => random.between(1, 1_200_000),
        _ => *random.pick(&[1, 2, 1_200_000, 20_000]),
    }
}
