//! The adjustment (document 01, "Closure, corrections, heights"): standing alone
//! as a call, as part of a closing, and the check of its promises in exact
//! fractions. A section is the pair of its Q and R (half dm). What the figures are in
//! is said by `Units`.

use crate::fraction::{narrow, round_even};
use crate::closing::Closing;
use crate::rules;

/// How many units a mm has: of Q and of the W that the limits are for 4, or 40 with measured
/// constants (document 02, W-203), which the call standing alone does not have; of a printed
/// height 1 or 10 (W-214). Corrections and the W that is printed have as many as both make
/// multiplied.
#[derive(Clone, Copy, Debug, PartialEq, Eq)]
pub struct Units {
    pub kept: i128,
    pub printed: i128,
}

impl Units {
    /// Q in quarter mm.
    pub fn quarters(prints: i64) -> Units {
        Units { kept: 4, printed: prints.into() }
    }
}

fn sum_of_q(sections: &[(i64, i64)]) -> i128 {
    sections.iter().map(|&(q, _)| i128::from(q)).sum()
}

fn sum_of_r(sections: &[(i64, i64)]) -> i128 {
    sections.iter().map(|&(_, r)| i128::from(r)).sum()
}

/// W = 4 start + sum of Q - 4 end for quarter mm, in the unit of Q; 0 on a spur, which has no
/// known end (document 02, W-202).
pub fn closure(units: Units, start: i64, end: Option<i64>, sections: &[(i64, i64)]) -> i128 {
    match end {
        Some(end) => units.kept * (i128::from(start) - i128::from(end)) + sum_of_q(sections),
        None => 0,
    }
}

/// The exact height in mm after k sections as a fraction; on a spur start plus running Q.
pub fn exact_height(
    units: Units,
    start: i64,
    end: Option<i64>,
    sections: &[(i64, i64)],
    k: usize,
) -> (i128, i128) {
    let q_k = sum_of_q(&sections[..k]);
    if end.is_none() {
        return (units.kept * i128::from(start) + q_k, units.kept);
    }
    let w = closure(units, start, end, sections);
    let l = sum_of_r(sections);
    let s_k = sum_of_r(&sections[..k]);
    (units.kept * i128::from(start) * l + q_k * l - w * s_k, units.kept * l)
}

/// The printed height of each section's end.
pub fn heights(units: Units, start: i64, end: Option<i64>, sections: &[(i64, i64)]) -> Vec<i64> {
    (1..=sections.len())
        .map(|k| {
            let (n, d) = exact_height(units, start, end, sections, k);
            narrow(round_even(units.printed * n, d))
        })
        .collect()
}

/// The correction of each section, for quarter mm and whole mm
/// 4 (printed height k - printed height k-1) - its Q.
pub fn corrections(units: Units, start: i64, sections: &[(i64, i64)], heights: &[i64]) -> Vec<i64> {
    let mut before = units.printed * i128::from(start);
    let mut corrections = Vec::new();
    for (k, &(q, _)) in sections.iter().enumerate() {
        let height = i128::from(heights[k]);
        corrections.push(narrow(units.kept * (height - before) - units.printed * i128::from(q)));
        before = height;
    }
    corrections
}

/// The call: one height a section goes into the list, whose further places keep
/// their values. Refusals in the order 11, 13, 12, 5, 57; then the list is untouched.
pub fn adjust(
    start: i64,
    end: i64,
    prints: i64,
    sections: &[(i64, i64)],
    list: &mut [i64],
) -> Result<(), u8> {
    if sections.is_empty() || sections.len() > rules::SECTIONS_OF_A_LINE {
        return Err(11);
    }
    if list.len() < sections.len() {
        return Err(13);
    }
    if !sections.iter().all(section_allowed) {
        return Err(12);
    }
    if !rules::height_allowed(start) || !rules::height_allowed(end) {
        return Err(5);
    }
    if !rules::prints_allowed(prints) {
        return Err(57);
    }
    let heights = heights(Units::quarters(prints), start, Some(end), sections);
    list[..sections.len()].copy_from_slice(&heights);
    Ok(())
}

/// R is 1 to 1,200,000 and Q within 2,500,000 either way (document 01,
/// refusal 12).
fn section_allowed(section: &(i64, i64)) -> bool {
    let (q, r) = *section;
    (1..=1_200_000).contains(&r) && (-2_500_000..=2_500_000).contains(&q)
}

/// Checks the promises of an adjustment: the corrections sum to -W, the last
/// height is the end's, each height lies within half a unit of the exact one, each
/// correction within one unit of its exact share -W R / L: a mm, or a tenth. On a spur
/// the first two are not promised, and the share is 0.
pub fn keeps_promises(
    units: Units,
    start: i64,
    end: Option<i64>,
    sections: &[(i64, i64)],
    heights: &[i64],
    corrections: &[i64],
) -> Result<(), String> {
    if heights.len() != sections.len() || corrections.len() != sections.len() {
        return Err(format!("{} heights for {} sections", heights.len(), sections.len()));
    }
    let w = units.printed * closure(units, start, end, sections);
    let l = sum_of_r(sections);
    let sum: i128 = corrections.iter().map(|&one| i128::from(one)).sum();
    if end.is_some() && sum != -w {
        return Err(format!("corrections sum to {sum}, W is {w}"));
    }
    let last = heights.last().map(|&one| i128::from(one));
    if end.is_some_and(|end| last != Some(units.printed * i128::from(end))) {
        return Err(format!("last height {:?}, end height {end:?}", heights.last()));
    }
    for (k, &(_, r)) in sections.iter().enumerate() {
        let (n, d) = exact_height(units, start, end, sections, k + 1);
        if 2 * (i128::from(heights[k]) * d - units.printed * n).abs() > d {
            return Err(format!("height {} is not {n}/{d} mm", heights[k]));
        }
        let off = i128::from(corrections[k]) * l + w * i128::from(r);
        if off.abs() > units.kept * l {
            return Err(format!(
                "correction {} is off its share {}/{l}",
                corrections[k],
                -w * i128::from(r)
            ));
        }
    }
    Ok(())
}

/// The same of a closing, with the sums of its points: the first is the start
/// with S and correction 0, each S the running sum of R, W and L as computed.
pub fn closing_keeps_promises(
    units: Units,
    start: i64,
    end: Option<i64>,
    sections: &[(i64, i64)],
    closing: &Closing,
) -> Result<(), String> {
    let first = closing.points.first().ok_or("no points")?;
    let height = narrow(units.printed * i128::from(start));
    if (first.distance, first.correction, first.height) != (0, 0, height) {
        return Err(format!("the start is {first:?}"));
    }
    if closing.points.len() != sections.len() + 1 {
        return Err(format!("{} points for {} sections", closing.points.len(), sections.len()));
    }
    if i128::from(closing.w) != units.printed * closure(units, start, end, sections) {
        return Err(format!("W is {}", closing.w));
    }
    if i128::from(closing.l) != sum_of_r(sections) || closing.n != sections.len() as i64 {
        return Err(format!("L is {}, n is {}", closing.l, closing.n));
    }
    for (k, point) in closing.points.iter().enumerate() {
        if i128::from(point.distance) != sum_of_r(&sections[..k]) {
            return Err(format!("S of point {k} is {}", point.distance));
        }
    }
    let heights: Vec<i64> = closing.points[1..].iter().map(|one| one.height).collect();
    let corrections: Vec<i64> = closing.points[1..].iter().map(|one| one.correction).collect();
    keeps_promises(units, start, end, sections, &heights, &corrections)
}
