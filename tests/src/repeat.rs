//! A run shot again (document 02, W-209; source document 003, 6.11.2 a to c): it is judged against the old run in its direction and against the opposite one.

use crate::fraction::within;
use crate::plain::{refuse_if, Answer, Call, Opened, Reading, Stage};
use crate::rules::{instrument_allowed, Class, SHORTEST_FOR_D};
use crate::station::{sum_of_heights, sum_of_sights, Station};
use crate::text::{parse_line, LINE};

/// What stands, or is due.
#[derive(Clone, Copy, Debug, PartialEq, Eq, PartialOrd, Ord)]
pub enum Judgement {
    New,
    Mean,
    Opposite,
}

/// What is given beside the texts of the old and the new run: order and instrument, and the opposite run's G, in its own direction, and s.
#[derive(Clone, Copy, Debug, PartialEq, Eq)]
pub struct Given {
    pub order: i64,
    pub instrument: i64,
    pub g: i64,
    pub s: i64,
}

/// 3 and then 52 where there is no judgement.
pub fn judge(first: &[u8], second: &[u8], given: Given) -> Result<Judgement, u8> {
    let class = [Class::Third, Class::Spur].into_iter().find(|class| class.order() == given.order).ok_or(3)?;
    refuse_if(!instrument_allowed(given.instrument), 3)?;
    let opened = Opened { order: given.order, instrument: given.instrument, start: 1, height: 0, prints: 1 };
    let empty = Reading { stage: Stage::Open, class: Some(class), opened: Some(opened), collimated: true, ..Reading::fresh() };
    let (old, new) = (run(first, empty.clone())?, run(second, empty.clone())?);
    refuse_if(!(-1_250_000..=1_250_000).contains(&given.g) || !(8..=600_000).contains(&given.s), 52)?;
    let r = (sum_of_sights(&old) + i128::from(given.s)).max(SHORTEST_FOR_D);
    let [old, new] = [&old, &new].map(|run| sum_of_heights(run, empty.staffs));
    let (a, b) = class.terms().both_ways.expect("a class out and back").agree;
    // of twice a difference, so that one of a mean is whole
    let agrees = |twice: i128| within(a, twice, 4 * b, r);
    let (to_old, to_opposite, mean_to_opposite) = (2 * (new - old), 2 * (new + i128::from(given.g)), old + new + 2 * i128::from(given.g));
    Ok(match (agrees(to_old), agrees(mean_to_opposite), agrees(to_opposite)) {
        (false, _, true) => Judgement::New,
        (true, true, _) => Judgement::Mean,
        (true, false, true) => Judgement::New,
        (_, _, false) => Judgement::Opposite,
    })
}

/// The stations of a text without a title; each line is one that is taken, and they are an even count.
fn run(text: &[u8], mut reading: Reading) -> Result<Vec<Station>, u8> {
    for piece in text.chunks(LINE) {
        let call = parse_line(piece).ok().filter(|call| matches!(call, Call::Station { .. })).ok_or(52)?;
        refuse_if(reading.apply(&call) != Answer::Taken, 52)?;
    }
    refuse_if(reading.run.is_empty() || reading.run.len() % 2 == 1, 52)?;
    Ok(reading.run)
}

/// What the program prints.
pub fn printed(first: &[u8], second: &[u8], given: Given) -> String {
    match judge(first, second, given) {
        Ok(Judgement::New) => "NEW RUN STANDS\n".into(),
        Ok(Judgement::Mean) => "MEAN STANDS\n".into(),
        Ok(Judgement::Opposite) => "OPPOSITE RUN DUE\n".into(),
        Err(number) => format!("REFUSED {number}\n"),
    }
}
