//! Stations, runs and sections with given figures, the same ones every time.

use crate::plain::Call;

/// The staffs that an outward run and a return begin with.
pub const FIRST: i64 = 4_787;
pub const SECOND: i64 = 4_687;

/// A station with these sights (dm) and this twice-height (half mm).
pub fn station(back_k: i64, sights: [i64; 2], twice: i64) -> Call {
    let (fore_k, e) = (FIRST + SECOND - back_k, twice.rem_euclid(2));
    let rise = (twice - e) / 2;
    let fore = 1_500 - rise / 2;
    let staff = |k: i64, sight: i64, m: i64, e: i64| {
        let lower = (m - sight / 2).clamp(0, 3_000 - sight);
        [lower + sight, lower, m, k + m - e]
    };
    Call::Station { back_k, fore_k, readings: [staff(back_k, sights[0], fore + rise, 0), staff(fore_k, sights[1], fore, e)] }
}

/// A level station, back staff first, with these e.
pub fn faces(back_e: i64, fore_e: i64) -> Call {
    let staff = |k: i64, e: i64| [1_600, 1_400, 1_500, k + 1_500 - e];
    Call::Station { back_k: FIRST, fore_k: SECOND, readings: [staff(FIRST, back_e), staff(SECOND, fore_e)] }
}

/// A run with these twice-heights, a station each; the fore sight of its first station is `short` dm below the other sights.
pub fn run_of(first_k: i64, sight: i64, short: i64, heights: &[i64]) -> Vec<Call> {
    let staffs = [first_k, FIRST + SECOND - first_k].into_iter().cycle();
    let sights = [[sight, sight - short]].into_iter().chain(std::iter::repeat([sight, sight]));
    staffs.zip(sights).zip(heights).map(|((k, sights), &twice)| station(k, sights, twice)).collect()
}

/// A run of so many stations with this sum of sights; the first station has the whole of this sum of twice-heights.
pub fn run_with(first_k: i64, stations: i64, sum: i64, twice: i64) -> Vec<Call> {
    let heights = [vec![twice], vec![0; stations as usize - 1]].concat();
    run_of(first_k, sum / (2 * stations), -(sum % (2 * stations)), &heights)
}

/// A section with this R, of two stations each way for each 6,000 of it that are begun, and the sums of twice-heights out and back, so that D is their sum and Q their
/// difference.
pub fn section_of(from: i64, r: i64, out: i64, back: i64) -> Vec<Call> {
    let stations = 2 * ((r + 5_999) / 6_000);
    let [out, back] = [run_with(FIRST, stations, r / 2, out), run_with(SECOND, stations, r - r / 2, back)];
    [out, vec![Call::EndRun(from + 1)], back, vec![Call::EndRun(from)]].concat()
}

/// A section of two stations each way: all sights 625 dm, so that R is 5,000; the twice-heights of the first station out and back, so that D is their sum and
/// Q their difference.
pub fn section(from: i64, to: i64, out: i64, back: i64) -> Vec<Call> {
    let [out, back] = [(FIRST, out), (SECOND, back)].map(|(k, twice)| run_of(k, 625, 0, &[twice, 0]));
    [out, vec![Call::EndRun(to)], back, vec![Call::EndRun(from)]].concat()
}
