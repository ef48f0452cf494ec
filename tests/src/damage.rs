//! Text books for comparisons, sound and damaged.

use crate::generate::short_book;
use crate::random::Random;
use crate::text::{COLUMNS, FIELD, LINE, LONGEST_TEXT, TAG};
use crate::write::{filled, heading, text_of};

/// Fields that are not numbers as document 01 writes them, and some that are.
const FIELDS: [&[u8; FIELD]; 24] = [
    b"        ",
    b"       0",
    b"      -0",
    b"      00",
    b"      07",
    b"     -07",
    b"      +5",
    b"5       ",
    b"     5  ",
    b"    1 2 ",
    b"    1  2",
    b"     - 5",
    b"     --5",
    b"      5-",
    b"      .5",
    b"    1,00",
    b"99999999",
    b"-9999999",
    b"00000000",
    b"       -",
    b"      5\n",
    b"      5\0",
    b"     \xff\xfe5",
    b"      1e",
];

/// Bytes that make trouble.
const BYTES: [u8; 14] = *b" \n\r\t-+0159AZ\0\xff";

/// Lines to be put in between.
const WORDS: [&str; 12] = ["", "LEVEL BOOK", "PNT", "LIN", "SPR", "FIN", "ANG", "KON", "KON   46870   47870", "DRR", "DRS", "LFT"];

/// Tags to be written over others.
const TAGS: [&[u8; TAG]; 11] = [b"LIN", b"STA", b"RUN", b"DRR", b"DRS", b"END", b"SPR", b"FIN", b"ANG", b"KON", b"LFT"];

/// A text book with a random list of calls, one in two damaged; one in two has other print units.
pub fn text_book(random: &mut Random) -> Vec<u8> {
    let mut text = text_of(&short_book(random, 776));
    if random.chance(1, 2) {
        set_prints(random, &mut text);
    }
    if random.chance(1, 2) {
        for _ in 0..=random.below(4) {
            damage(random, &mut text);
        }
    }
    text
}

/// Random bytes, any length up to `most`.
pub fn rubbish(random: &mut Random, most: u64) -> Vec<u8> {
    let length = random.below(most + 1);
    (0..length).map(|_| random.next() as u8).collect()
}

/// Damages a text in one place; line 1 is spared mostly.
pub fn damage(random: &mut Random, text: &mut Vec<u8>) {
    let lines = (text.len() / LINE) as u64;
    if lines < 2 {
        text.extend(rubbish(random, 200));
        return;
    }
    let first = u64::from(!random.chance(1, 30));
    let line = LINE * (first + random.below(lines - first)) as usize;
    match random.below(15) {
        0 | 1 => set(text, line + random.below(LINE as u64) as usize, *random.pick(&BYTES)),
        2..=5 => set_field(random, text, line),
        6 => set(text, line + COLUMNS, *random.pick(&BYTES)),
        7 => set(text, line + random.below(TAG as u64) as usize, *random.pick(b"SlLTEeR NPFIAGKO")),
        8 => set(text, line + random.between(70, 82) as usize, *random.pick(&BYTES)),
        9 => {
            let words: &str = random.pick::<&str>(&WORDS);
            insert(text, line, &filled(words));
        }
        10 => bad_field_and_more(random, text, line),
        11 => change_length(random, text),
        12 => insert(text, line, &rubbish(random, 100)),
        13 => text[line..line + TAG].copy_from_slice(*random.pick(&TAGS)),
        _ => {
            let byte = line + random.below(LINE as u64) as usize;
            text.remove(byte);
        }
    }
}

fn set(text: &mut [u8], place: usize, byte: u8) {
    text[place] = byte;
}

fn insert(text: &mut Vec<u8>, place: usize, bytes: &[u8]) {
    text.splice(place..place, bytes.iter().copied());
}

/// Writes one of `FIELDS` over a field of a line.
fn set_field(random: &mut Random, text: &mut [u8], line: usize) {
    let field = *random.pick(&[0, 0, 0, 1, 1, 2, 3, 4, 5, 6, 7, 8, 9]);
    let place = line + TAG + field * FIELD;
    text[place..place + FIELD].copy_from_slice(*random.pick(&FIELDS));
}

/// Writes over the print unit of each opening: mostly blanks, 1 or 10, else another number or one of `FIELDS`.
fn set_prints(random: &mut Random, text: &mut [u8]) {
    let openings = text.chunks_mut(LINE).filter(|line| line.starts_with(b"LIN") || line.starts_with(b"SPR"));
    for line in openings {
        let field = match random.below(12) {
            0..=5 => b"        ",
            6 | 7 => b"       1",
            8 | 9 => b"      10",
            10 => random.pick::<&[u8; FIELD]>(&[b"       0", b"       2", b"     100", b"     -10"]),
            _ => *random.pick(&FIELDS),
        };
        line[TAG + 4 * FIELD..][..FIELD].copy_from_slice(field);
    }
}

/// A bad first field together with something in the last columns.
fn bad_field_and_more(random: &mut Random, text: &mut [u8], line: usize) {
    text[line + TAG..line + TAG + FIELD].copy_from_slice(*random.pick(&FIELDS));
    text[line + COLUMNS - 1] = *random.pick(&BYTES);
}

/// Cuts the text, adds a short piece or the heading, or fills it to the longest
/// text, or one byte beyond.
fn change_length(random: &mut Random, text: &mut Vec<u8>) {
    match random.below(8) {
        0 => text.truncate(random.below(text.len() as u64 + 1) as usize),
        1 | 2 => text.truncate(text.len() - 1 - random.below(LINE as u64) as usize),
        3 => text.extend(rubbish(random, 83)),
        4 => text.extend(heading()),
        5 => text.resize(LONGEST_TEXT, b' '),
        6 => text.resize(LONGEST_TEXT + 1, b' '),
        _ => text.clear(),
    }
}
