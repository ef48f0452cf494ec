//! The plain reading of a list of calls (document 01, "Runs, sections and the
//! standing list"): lists of stations, and every rule read over these lists. The
//! closing calls are in `closing`, the test of the level in `collimation`, the measured
//! constants in `constants`.

use crate::closing::Closing;
use crate::constants::Staffs;
use crate::rules::{self, Class};
use crate::station::{accumulated_d, sum_of_heights, sum_of_sights, Station, BACK, FORE};

/// The calls on a book; any argument may be any number of 64 bits.
/// `readings[0]` is the back staff, `readings[1]` the fore staff, each u, l, m, r.
#[derive(Clone, Debug, PartialEq, Eq)]
pub enum Call {
    Open(Opened),
    Station { back_k: i64, fore_k: i64, readings: [[i64; 4]; 2] },
    EndRun(i64),
    DropRun,
    DropSection,
    CloseLine { number: i64, height: i64 },
    OpenSpur(Opened),
    CloseSpur(i64),
    /// A1, B1, A2, B2, D1, D2.
    Collimation([i64; 6]),
    /// The measured constant of the staff 4,687, then of the staff 4,787, in tenths of a mm.
    Constants([i64; 2]),
    LiftSection,
}

#[derive(Clone, Debug, PartialEq, Eq)]
pub enum Answer {
    Refused(u8),
    Taken,
    Closed(Closing),
}

#[derive(Clone, Copy, Debug, PartialEq, Eq)]
pub enum Stage {
    Fresh,
    Open,
    Closed,
}

#[derive(Clone, Copy, Debug, PartialEq, Eq)]
pub struct Opened {
    pub order: i64,
    pub instrument: i64,
    pub start: i64,
    pub height: i64,
    /// How many units of a printed height a mm has.
    pub prints: i64,
}

/// A finished section: its number, its outward run and, at third order and on a
/// spur, its return run.
#[derive(Clone, Debug, PartialEq, Eq)]
pub struct Section {
    pub number: i64,
    pub outward: Vec<Station>,
    pub homeward: Option<Vec<Station>>,
}

impl Section {
    /// Q in quarter mm or a tenth of that: 2 G, or G - G' with a return.
    pub fn q(&self, staffs: Staffs) -> i128 {
        let out = sum_of_heights(&self.outward, staffs);
        match &self.homeward {
            None => 2 * out,
            Some(homeward) => out - sum_of_heights(homeward, staffs),
        }
    }

    /// R in half dm: 2 s, or s + s' with a return.
    pub fn r(&self) -> i128 {
        match &self.homeward {
            None => 2 * sum_of_sights(&self.outward),
            Some(homeward) => sum_of_sights(&self.outward) + sum_of_sights(homeward),
        }
    }

    /// D in half mm or a tenth of that: G + G'; a section without return has none.
    pub fn d(&self, staffs: Staffs) -> Option<i128> {
        let homeward = self.homeward.as_ref()?;
        Some(sum_of_heights(&self.outward, staffs) + sum_of_heights(homeward, staffs))
    }
}

/// An outward run that waits for its return.
#[derive(Clone, Debug, PartialEq, Eq)]
pub struct Waiting {
    pub number: i64,
    pub outward: Vec<Station>,
}

/// What the plain reading keeps; a spur is closed without an end height. `begun` is whether a call
/// was taken since the line or spur was opened, `collimated` whether a test of the level was.
#[derive(Clone, Debug, PartialEq, Eq)]
pub struct Reading {
    pub stage: Stage,
    pub class: Option<Class>,
    pub opened: Option<Opened>,
    pub end_height: Option<i64>,
    pub begun: bool,
    pub staffs: Staffs,
    pub collimated: bool,
    pub sections: Vec<Section>,
    pub waiting: Option<Waiting>,
    pub run: Vec<Station>,
}

impl Default for Reading {
    fn default() -> Reading {
        Reading::fresh()
    }
}

/// A call's own result before it becomes an answer: the refusal is the number.
pub(crate) type Outcome = Result<(), u8>;

pub(crate) fn refuse_if(condition: bool, number: u8) -> Outcome {
    if condition {
        Err(number)
    } else {
        Ok(())
    }
}

impl Reading {
    pub fn fresh() -> Reading {
        Reading {
            stage: Stage::Fresh,
            class: None,
            opened: None,
            end_height: None,
            begun: false,
            staffs: Staffs::Nominal,
            collimated: false,
            sections: Vec::new(),
            waiting: None,
            run: Vec::new(),
        }
    }

    /// Takes or refuses one call; a refused call changes nothing.
    pub fn apply(&mut self, call: &Call) -> Answer {
        match self.take(call) {
            Err(number) => Answer::Refused(number),
            Ok(answer) => {
                self.begun = !matches!(call, Call::Open(_) | Call::OpenSpur(_));
                answer
            }
        }
    }

    fn take(&mut self, call: &Call) -> Result<Answer, u8> {
        match *call {
            Call::Open(opened) => self.open(Class::of_line(opened.order), opened)?,
            Call::OpenSpur(opened) => self.open(Class::of_spur(opened.order), opened)?,
            Call::Station { back_k, fore_k, readings } => {
                self.station(Station { back_k, fore_k, readings })?
            }
            Call::EndRun(number) => self.end_run(number)?,
            Call::DropRun => self.drop_run()?,
            Call::DropSection => self.drop_section()?,
            Call::CloseLine { number, height } => {
                return self.close_line(number, height).map(Answer::Closed)
            }
            Call::CloseSpur(number) => return self.close_spur(number).map(Answer::Closed),
            Call::Collimation(values) => self.collimation(&values)?,
            Call::Constants(values) => self.measured(&values)?,
            Call::LiftSection => self.lift_section()?,
        }
        Ok(Answer::Taken)
    }

    /// The class is none where the order does not fit the call.
    fn open(&mut self, class: Option<Class>, opened: Opened) -> Outcome {
        refuse_if(class.is_none() || !rules::instrument_allowed(opened.instrument), 3)?;
        refuse_if(!rules::number_allowed(opened.start), 4)?;
        refuse_if(!rules::height_allowed(opened.height), 5)?;
        refuse_if(!rules::prints_allowed(opened.prints), 57)?;
        refuse_if(self.stage != Stage::Fresh, 21)?;
        self.stage = Stage::Open;
        self.class = class;
        self.opened = Some(opened);
        Ok(())
    }

    fn station(&mut self, station: Station) -> Outcome {
        refuse_if(!station.readings_in_range(), 6)?;
        refuse_if(!station.constants_fit(), 7)?;
        refuse_if(!station.threads_ordered(), 8)?;
        let (_, opened) = self.open_line()?;
        refuse_if(self.loop_is_shut(), 21)?;
        refuse_if(!self.collimated, 46)?;
        refuse_if(self.run.len() >= rules::STATIONS_OF_A_RUN, 22)?;
        refuse_if(!self.in_turn(station.back_k), 23)?;
        let limits = rules::limits(opened.order, opened.instrument);
        let accumulated = accumulated_d(&self.run) + station.d();
        refuse_if(station.sight(BACK) > limits.sight || station.sight(FORE) > limits.sight, 24)?;
        refuse_if(station.d().abs() > limits.d, 25)?;
        refuse_if(accumulated.abs() > limits.accumulated, 26)?;
        let (staffs, parts) = (self.staffs, self.staffs.parts());
        let within = |e: i128| e.abs() <= parts * limits.e;
        refuse_if(!within(station.e(BACK, staffs)) || !within(station.e(FORE, staffs)), 27)?;
        refuse_if(station.faces(staffs).abs() > parts * limits.faces, 28)?;
        self.run.push(station);
        Ok(())
    }

    fn end_run(&mut self, number: i64) -> Outcome {
        refuse_if(!rules::number_allowed(number), 4)?;
        let (class, opened) = self.open_line()?;
        refuse_if(self.loop_is_shut(), 21)?;
        refuse_if(self.run.is_empty() || self.run.len() % 2 == 1, 29)?;
        if self.waiting.is_none() {
            self.end_outward(number, class, opened)
        } else {
            self.end_return(number, class, opened)
        }
    }

    /// Where sections go out and back an ended outward run waits, elsewhere it is a section.
    fn end_outward(&mut self, number: i64, class: Class, opened: Opened) -> Outcome {
        refuse_if(self.sections.len() >= rules::SECTIONS_OF_A_LINE, 31)?;
        refuse_if(!self.may_end_outward_on(number, class, opened.start), 30)?;
        let outward = std::mem::take(&mut self.run);
        if class.goes_both_ways() {
            self.waiting = Some(Waiting { number, outward });
        } else {
            self.sections.push(Section { number, outward, homeward: None });
        }
        Ok(())
    }

    /// The return finishes the section under the waiting number.
    fn end_return(&mut self, number: i64, class: Class, opened: Opened) -> Outcome {
        refuse_if(number != self.section_begin(opened.start), 30)?;
        let waiting = self.waiting.as_ref().expect("a waiting run");
        let section = Section {
            number: waiting.number,
            outward: waiting.outward.clone(),
            homeward: Some(self.run.clone()),
        };
        let d = section.d(self.staffs).expect("a return");
        refuse_if(!rules::double_run_agrees(class, self.staffs, d, section.r()), 32)?;
        self.sections.push(section);
        self.waiting = None;
        self.run.clear();
        Ok(())
    }

    fn drop_run(&mut self) -> Outcome {
        self.open_line()?;
        self.run.clear();
        Ok(())
    }

    fn drop_section(&mut self) -> Outcome {
        self.open_line()?;
        self.run.clear();
        self.waiting = None;
        Ok(())
    }

    /// Takes the last section out (document 02, W-210); there must be one, and nothing of another.
    fn lift_section(&mut self) -> Outcome {
        self.open_line()?;
        refuse_if(self.waiting.is_some() || !self.run.is_empty(), 53)?;
        self.sections.pop().map(|_| ()).ok_or(53)
    }
}
