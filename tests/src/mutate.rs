//! Random changes of a list of calls: arguments at range limits, extreme values,
//! calls lost, doubled or out of place, a line's calls for a spur's.

use crate::constants::NOMINAL;
use crate::opening::{usual, MEASURED, TABLE_B7};
use crate::plain::{Call, Opened};
use crate::random::Random;

/// Values around the limits that documents 01 and 02 name, and extreme ones.
const ODD_VALUES: [i64; 58] = [
    0,
    1,
    2,
    3,
    4,
    5,
    9,
    10,
    11,
    100,
    -1,
    -2,
    9_999,
    10_000,
    -999_999,
    -1_000_000,
    8_999_999,
    9_000_000,
    2_999,
    3_000,
    3_001,
    7_999,
    8_000,
    4_686,
    4_687,
    4_688,
    4_787,
    4_788,
    12_000,
    12_001,
    4_999,
    5_000,
    7_000,
    7_001,
    39_999,
    40_000,
    50_000,
    50_001,
    46_769,
    46_770,
    46_970,
    46_971,
    47_769,
    47_770,
    47_970,
    47_971,
    99_999_999,
    -9_999_999,
    i64::MAX,
    i64::MIN,
    i64::MAX - 1,
    i64::MIN + 1,
    1 << 31,
    -(1 << 31),
    1 << 32,
    1 << 16,
    1 << 8,
    1 << 62,
];

/// The arguments of a call, to be changed in place.
pub fn arguments(call: &mut Call) -> Vec<&mut i64> {
    match call {
        Call::Open(opened) | Call::OpenSpur(opened) => {
            let Opened { order, instrument, start, height, prints } = opened;
            vec![order, instrument, start, height, prints]
        }
        Call::Station { back_k, fore_k, readings } => {
            let mut all = vec![back_k, fore_k];
            all.extend(readings.iter_mut().flatten());
            all
        }
        Call::EndRun(number) | Call::CloseSpur(number) => vec![number],
        Call::DropRun | Call::DropSection | Call::LiftSection => vec![],
        Call::CloseLine { number, height } => vec![number, height],
        Call::Collimation(values) => values.iter_mut().collect(),
        Call::Constants(values) => values.iter_mut().collect(),
    }
}

fn odd_value(random: &mut Random, old: i64) -> i64 {
    match random.below(4) {
        0 => old.wrapping_add(random.between(-2, 2)),
        1 => old.wrapping_neg(),
        2 => random.next() as i64 >> random.below(64),
        _ => *random.pick(&ODD_VALUES),
    }
}

/// A call whose arguments are anything.
pub fn any_call(random: &mut Random) -> Call {
    let k = *random.pick(&NOMINAL);
    let m = random.between(1, 2_999);
    let staff = [m + 1, m - 1, m, m + k];
    let mut call = match random.below(11) {
        0 => Call::Open(Opened { height: 0, ..usual(3) }),
        1 => Call::Station {
            back_k: k,
            fore_k: NOMINAL[0] + NOMINAL[1] - k,
            readings: [staff; 2],
        },
        2 => Call::EndRun(1),
        3 => Call::DropRun,
        4 => Call::DropSection,
        5 => Call::OpenSpur(Opened { height: 0, ..usual(4) }),
        6 => Call::CloseSpur(1),
        7 => Call::Collimation(TABLE_B7),
        8 => Call::Constants(MEASURED),
        9 => Call::LiftSection,
        _ => Call::CloseLine { number: 1, height: 0 },
    };
    for argument in arguments(&mut call) {
        if random.chance(1, 3) {
            *argument = odd_value(random, *argument);
        }
    }
    call
}

/// Changes one argument of a call that has any.
fn change_argument(random: &mut Random, call: &mut Call) {
    let mut all = arguments(call);
    if !all.is_empty() {
        let which = random.below(all.len() as u64) as usize;
        *all[which] = odd_value(random, *all[which]);
    }
}

/// The call of a spur for a line's opening or closing, and the other way round.
fn counterpart(call: &Call) -> Option<Call> {
    match *call {
        Call::Open(opened) => Some(Call::OpenSpur(opened)),
        Call::OpenSpur(opened) => Some(Call::Open(opened)),
        Call::CloseLine { number, .. } => Some(Call::CloseSpur(number)),
        Call::CloseSpur(number) => Some(Call::CloseLine { number, height: 0 }),
        _ => None,
    }
}

/// Puts one counterpart into a list, if there is any.
fn change_class(random: &mut Random, calls: &mut [Call]) {
    let others = calls.iter_mut().filter_map(|call| Some((counterpart(call)?, call)));
    let mut others: Vec<(Call, &mut Call)> = others.collect();
    if !others.is_empty() {
        let which = random.below(others.len() as u64) as usize;
        let (other, call) = others.swap_remove(which);
        *call = other;
    }
}

/// Makes up to `most` changes in a list of calls.
pub fn mutate(random: &mut Random, calls: &mut Vec<Call>, most: u64) {
    for _ in 0..=random.below(most) {
        if calls.is_empty() {
            calls.push(any_call(random));
        }
        let count = calls.len() as u64;
        let here = random.below(count) as usize;
        let there = random.below(count) as usize;
        match random.below(13) {
            0..=5 => change_argument(random, &mut calls[here]),
            6 => calls.insert(here, any_call(random)),
            7 => {
                calls.remove(here);
            }
            8 => calls.insert(here, calls[there].clone()),
            9 => calls.swap(here, there),
            10 => calls.insert(here, calls[here].clone()),
            11 => change_class(random, calls),
            _ if random.chance(1, 8) => calls.truncate(here + 1),
            _ => change_argument(random, &mut calls[there]),
        }
    }
}
