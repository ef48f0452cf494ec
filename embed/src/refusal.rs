use std::fmt;

/// The rows LEVEL_REFUSAL(number, "meaning"), which levelbook.h includes.
const TABLE: &str = include_str!("../refusals.def");

/// What a refusal number means; nothing for a number that there is not. What the party does about it is in docs/REFUSALS.md.
///
/// ```
/// assert_eq!(levelbook::meaning(4), Some("benchmark number outside 1 to 9,999"));
/// assert_eq!(levelbook::meaning(0), None);
/// ```
pub fn meaning(number: u8) -> Option<&'static str> {
    let begin = format!("LEVEL_REFUSAL({number}, \"");
    TABLE.lines().find_map(|row| row.strip_prefix(&begin)?.strip_suffix("\")"))
}

/// Why a call of the libraries was refused, by document 01's number. What a book refuses of its text is not here but in the report, and what it
/// refuses of a list of calls is in [`crate::Outcome::numbers`].
#[derive(Clone, Copy, Debug, PartialEq, Eq, Hash)]
#[repr(u8)]
#[non_exhaustive]
pub enum Refusal {
    /// The order or the instrument.
    OrderOrInstrument = 3,
    /// A known height.
    Height = 5,
    /// The text.
    TextTooLong = 9,
    /// The report buffer.
    BufferTooShort = 10,
    /// How many sections there are.
    Sections = 11,
    /// The R or Q of a section.
    Section = 12,
    /// The height list.
    ListTooShort = 13,
    /// The window, or the line, which is levelled one way.
    DriftWindow = 51,
    /// A text of a run shot again, or the figures of the opposite run.
    RepeatedRun = 52,
    /// The line, which is not closed, or the buffer of the pairs.
    Profile = 56,
}

impl Refusal {
    const ALL: [Refusal; 10] = [
        Refusal::OrderOrInstrument,
        Refusal::Height,
        Refusal::TextTooLong,
        Refusal::BufferTooShort,
        Refusal::Sections,
        Refusal::Section,
        Refusal::ListTooShort,
        Refusal::DriftWindow,
        Refusal::RepeatedRun,
        Refusal::Profile,
    ];

    /// Document 01's number, of which [`meaning`] has the text.
    ///
    /// ```
    /// let refusal = levelbook::reduce(&[b' '; 65_269]).unwrap_err();
    /// assert_eq!(refusal.number(), 9);
    /// assert_eq!(refusal.to_string(), "refusal 9: text above 65,268 bytes (777 lines)");
    /// ```
    pub fn number(self) -> u8 {
        self as u8
    }

    /// The answer of a call, 0 where it is taken.
    pub(crate) fn check(number: u8) -> Result<(), Refusal> {
        if number == 0 {
            return Ok(());
        }
        Err(*Refusal::ALL.iter().find(|one| one.number() == number).expect("a number of document 01"))
    }
}

impl fmt::Display for Refusal {
    fn fmt(&self, f: &mut fmt::Formatter<'_>) -> fmt::Result {
        let number = self.number();
        write!(f, "refusal {number}: {}", meaning(number).expect("a row of the table"))
    }
}

impl std::error::Error for Refusal {}
