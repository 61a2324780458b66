//! Random rows of batch cards: figures written in every way, gaps, and what is wrong with a row.

use super::{Generator, Range};
use crate::card::{field, Form, Goes, CARD_FIELDS, FIELD_MOST, FORMS, GOES, HEADING_LINES};
use crate::site;
use crate::state::MONTHS;

/// The fields of a row as they stand in the text.
pub type FieldTexts = Vec<Vec<u8>>;

/// What a row of a survey would have, in thousandths of its units: the most of each figure.
const USUAL: [u64; CARD_FIELDS] =
    [0, 99_000, 99_000, 84_000, 2_000_000, 2_000_000, 40_000, 1_000, 30_000, 40_000, 60_000, 60_000];

/// The largest figure of eight bytes, in thousandths.
const LARGEST: u64 = 99_999_999_000;

/// What may stand in no field but ID: each is no figure.
pub const NO_FIGURES: [&[u8]; 24] = [
    b".5",
    b"5.",
    b".",
    b"**",
    b"*1",
    b"1*",
    b"-1",
    b"+1",
    b"1e2",
    b"1,5",
    b"0x1",
    b"1.2.3",
    b"1..2",
    b"0.1234",
    b"x",
    b"1x",
    b"x1",
    b"1\t",
    b"\t",
    b"1\r",
    b"1\0",
    b"\xff",
    b"1\xb2",
    "½".as_bytes(),
];

/// One thing wrong with a row that is refused with 12, skipped or refused with 7.
#[derive(Clone, Copy, Debug, PartialEq, Eq)]
pub enum TextFault {
    /// The field of this place is not there.
    Lost(usize),
    /// A field more, before this place.
    More(usize),
    /// Nine bytes in this field.
    Long(usize),
    /// Not a figure in this field (1 to 11), but what `NO_FIGURES` has at the second place.
    NoFigure(usize, usize),
    /// A point in AGE, ABSSOIL or ABSDUST.
    Point(usize),
    /// A tab for the space behind the field of this place (0 to 10).
    Tab(usize),
    /// A carriage return at the row's end.
    Return,
    /// No age.
    AgeGap,
    /// An age that is no month of the run, the one that `AGES_OUTSIDE` has there.
    AgeOutside(usize),
    /// Neither soil nor dust.
    BothGaps,
    /// The figure that this place of `GOES` has, over its limit by the least that eight bytes can write.
    Over(usize),
}

/// Ages that are none of the 84 months.
pub const AGES_OUTSIDE: [&str; 6] = ["0", "85", "00000000", "00000085", "100", "99999999"];

impl TextFault {
    /// The number that a row with this fault alone is refused with, if it is refused.
    pub fn number(self) -> Option<u32> {
        match self {
            TextFault::AgeGap | TextFault::AgeOutside(_) | TextFault::BothGaps => None,
            TextFault::Over(_) => Some(7),
            _ => Some(12),
        }
    }

    /// Where it stands in the order: 12, then the skip, then 7.
    pub fn turn(self) -> usize {
        match self.number() {
            Some(12) => 0,
            None => 1,
            _ => 2,
        }
    }
}

/// Every fault of a row.
pub fn text_faults() -> Vec<TextFault> {
    use TextFault::*;
    let mut faults = vec![Return, AgeGap, BothGaps];
    faults.extend((0..CARD_FIELDS).flat_map(|place| [Lost(place), More(place), Long(place)]));
    faults.push(More(CARD_FIELDS));
    faults.extend(
        (1..CARD_FIELDS).flat_map(|place| (0..NO_FIGURES.len()).map(move |what| NoFigure(place, what))),
    );
    faults.extend((0..CARD_FIELDS).filter(|&place| FORMS[place] == Form::Whole).map(Point));
    faults.extend((0..CARD_FIELDS - 1).map(Tab));
    faults.extend((0..AGES_OUTSIDE.len()).map(AgeOutside));
    faults.extend((0..GOES.len()).map(Over));
    faults
}

/// A fault of any kind, each kind as often as the others.
pub fn text_fault(generator: &mut Generator) -> TextFault {
    use TextFault::*;
    match generator.index(11) {
        0 => Lost(generator.index(CARD_FIELDS)),
        1 => More(generator.index(CARD_FIELDS + 1)),
        2 => Long(generator.index(CARD_FIELDS)),
        3 => NoFigure(1 + generator.index(CARD_FIELDS - 1), generator.index(NO_FIGURES.len())),
        4 => Point([field::AGE, field::ABSSOIL, field::ABSDUST][generator.index(3)]),
        5 => Tab(generator.index(CARD_FIELDS - 1)),
        6 => Return,
        7 => AgeGap,
        8 => AgeOutside(generator.index(AGES_OUTSIDE.len())),
        9 => BothGaps,
        _ => Over(generator.index(GOES.len())),
    }
}

/// Puts faults into the fields of a row: first what they say, that for 12 last, then how many there are, from the row's end.
/// Each is there in the end, but that a field lost and one more are as many as before.
pub fn break_texts(texts: &mut FieldTexts, faults: &[TextFault]) {
    let mut faults = faults.to_vec();
    faults.sort_by_key(|fault| match fault {
        TextFault::Tab(place) | TextFault::Lost(place) | TextFault::More(place) => {
            (2, CARD_FIELDS - place.min(&CARD_FIELDS))
        }
        TextFault::Return => (1, 0),
        _ => (0, 2 - fault.turn()),
    });
    for fault in faults {
        break_text(texts, fault);
    }
}

fn break_text(texts: &mut FieldTexts, fault: TextFault) {
    match fault {
        TextFault::Lost(place) if place < texts.len() => drop(texts.remove(place)),
        TextFault::Tab(place) if place + 1 < texts.len() => {
            let next = texts.remove(place + 1);
            texts[place] = [texts[place].as_slice(), &next].join(&b'\t');
        }
        // Another fault has taken the field already.
        TextFault::Lost(_) | TextFault::Tab(_) => {}
        TextFault::More(place) => texts.insert(place.min(texts.len()), b"1".to_vec()),
        TextFault::Long(place) => texts[place] = b"000000001".to_vec(),
        TextFault::NoFigure(place, what) => texts[place] = NO_FIGURES[what].to_vec(),
        TextFault::Point(place) => texts[place] = b"30.0".to_vec(),
        TextFault::Return => texts.last_mut().expect("a row has fields").push(b'\r'),
        TextFault::AgeGap => texts[field::AGE] = b"*".to_vec(),
        TextFault::AgeOutside(which) => texts[field::AGE] = AGES_OUTSIDE[which].as_bytes().to_vec(),
        TextFault::BothGaps => {
            [field::SOIL, field::DUST].iter().for_each(|&place| texts[place] = b"*".to_vec())
        }
        TextFault::Over(which) => texts[GOES[which].from] = over(which).into_bytes(),
    }
}

/// The least figure over the limit of this place of `GOES` that eight bytes can write.
pub fn over(which: usize) -> String {
    let goes = GOES[which];
    just_over(&goes, site::most(goes.to))
}

/// The least figure over a limit that eight bytes can write; the limit is in the site's unit.
pub fn just_over(goes: &Goes, most: u32) -> String {
    let most = u128::from(most) / goes.factor;
    if FORMS[goes.from] == Form::Whole {
        return (most + 1).to_string();
    }
    let decimals = (FIELD_MOST - most.to_string().len() - 1).min(3);
    format!("{most}.{:0>decimals$}", 1)
}

/// A figure of this many thousandths in one of the ways to write it, cut to eight bytes.
fn written(generator: &mut Generator, thousandths: u64) -> Vec<u8> {
    let mut text = (thousandths / 1_000).to_string();
    if !thousandths.is_multiple_of(1_000) || generator.once_in(4) {
        text += &format!(".{:03}", thousandths % 1_000);
        text.truncate(FIELD_MOST);
        // Noughts at the end may go, but one digit stays behind a point.
        while text.ends_with('0') && !text.ends_with(".0") && !generator.once_in(3) {
            text.pop();
        }
        text = text.trim_end_matches('.').to_string();
    }
    if generator.once_in(8) {
        text = format!("{text:0>FIELD_MOST$}");
    }
    text.into_bytes()
}

/// The most that a field may say in thousandths, if it has a limit.
fn limit(place: usize) -> Option<u64> {
    let goes = GOES.iter().find(|goes| goes.from == place)?;
    Some((1_000 * u128::from(site::most(goes.to)) / goes.factor) as u64)
}

fn figure(generator: &mut Generator, range: Range, place: usize) -> Vec<u8> {
    let most = limit(place).unwrap_or(LARGEST);
    let thousandths = match range {
        Range::Near => generator.between(0, USUAL[place]),
        Range::Wide => generator.sized(most),
        Range::Limits => generator.at_limits(most),
    };
    let wholes = thousandths / 1_000;
    match FORMS[place] {
        Form::Whole => wholes.to_string().into_bytes(),
        _ if generator.once_in(3) => written(generator, 1_000 * wholes),
        _ => written(generator, thousandths),
    }
}

/// An age: a month of the run, seldom any other.
fn age(generator: &mut Generator, range: Range) -> Vec<u8> {
    let age = match range {
        Range::Near => generator.between(1, 84),
        _ if generator.once_in(12) => generator.between(0, 100),
        _ => 1 + generator.at_limits(MONTHS as u64 - 1),
    };
    let width = if generator.once_in(8) { FIELD_MOST } else { 1 };
    format!("{age:0>width$}").into_bytes()
}

fn any_but_line_feed(generator: &mut Generator) -> u8 {
    match generator.any() as u8 {
        b'\n' => b'\r',
        byte => byte,
    }
}

/// Any text without a space or a line feed.
fn name(generator: &mut Generator) -> Vec<u8> {
    let length = generator.between(1, FIELD_MOST as u64);
    let mut byte = || match any_but_line_feed(generator) {
        b' ' => b'_',
        byte if generator.once_in(3) => byte,
        _ => generator.between(33, 126) as u8,
    };
    (0..length).map(|_| byte()).collect()
}

/// The fields of a random row that 12 and 7 let pass; at least one of soil and dust is there.
pub fn field_texts(generator: &mut Generator, range: Range) -> FieldTexts {
    let gaps = if range == Range::Near { 4 } else { 6 };
    let mut texts: FieldTexts = (0..CARD_FIELDS).map(|_| b"*".to_vec()).collect();
    texts[field::ID] = name(generator);
    texts[field::AGE] = age(generator, range);
    let there = [field::SOIL, field::DUST][generator.index(2)];
    for place in (0..CARD_FIELDS).filter(|&place| place != field::ID && place != field::AGE) {
        if place == there || !generator.once_in(gaps) {
            texts[place] = figure(generator, range, place);
        }
    }
    texts
}

/// Fields parted by one space or more, with spaces before and behind them or none.
pub fn joined(generator: &mut Generator, texts: &FieldTexts) -> Vec<u8> {
    let mut spaces = |least: u64| {
        let more = if generator.once_in(4) { generator.between(0, 5) } else { 0 };
        vec![b' '; (least + more) as usize]
    };
    let mut row = spaces(0);
    for (place, text) in texts.iter().enumerate() {
        row.extend(if place == 0 { Vec::new() } else { spaces(1) });
        row.extend(text);
    }
    row.extend(spaces(0));
    row
}

/// A random row with this many faults.
pub fn survey_row(generator: &mut Generator, range: Range, faults: usize) -> Vec<u8> {
    let mut texts = field_texts(generator, range);
    let faults: Vec<TextFault> = (0..faults).map(|_| text_fault(generator)).collect();
    break_texts(&mut texts, &faults);
    joined(generator, &texts)
}

/// Turns, drops or puts in some bytes of a row or a text, whatever comes of it; no line feed is put in.
pub fn scratched(generator: &mut Generator, mut row: Vec<u8>) -> Vec<u8> {
    for _ in 0..=generator.index(3) {
        let at = generator.index(row.len() + 1);
        let byte = match generator.index(4) {
            0 => b' ',
            1 => b"*.-0159\t\r\0"[generator.index(10)],
            2 => generator.between(b'0'.into(), b'9'.into()) as u8,
            _ => any_but_line_feed(generator),
        };
        match generator.index(3) {
            0 if at < row.len() => drop(row.remove(at)),
            1 if at < row.len() => row[at] = byte,
            _ => row.insert(at, byte),
        }
    }
    row
}

/// A random row, one in three with faults or scratches.
pub fn any_row(generator: &mut Generator, range: Range) -> Vec<u8> {
    match generator.index(6) {
        0 => {
            let faults = 1 + generator.index(2);
            survey_row(generator, range, faults)
        }
        1 => {
            let row = survey_row(generator, range, 0);
            scratched(generator, row)
        }
        _ => survey_row(generator, range, 0),
    }
}

/// The text of a card with three headings and this many rows, the last line feed there or not.
pub fn survey(generator: &mut Generator, range: Range, rows: usize) -> Vec<u8> {
    let headings = ["", "a survey", "ID FAM BLOCK AGE", "1 2 3 4 5 6 7 8 9 10 11 12", "\r", " "];
    let mut lines: Vec<Vec<u8>> = Vec::new();
    for _ in 0..HEADING_LINES {
        lines.push(headings[generator.index(headings.len())].as_bytes().to_vec());
    }
    lines.extend((0..rows).map(|_| any_row(generator, range)));
    let mut text = lines.join(&b'\n');
    if !generator.once_in(3) {
        text.push(b'\n');
    }
    text
}

/// A row of a group: mostly of a child so young that its months are few, else any row, an empty one or a long one.
pub fn group_row(generator: &mut Generator, range: Range) -> Vec<u8> {
    match generator.index(16) {
        0 => Vec::new(),
        1 => {
            let mut row = any_row(generator, range);
            let at = generator.index(row.len() + 1);
            row.splice(at..at, vec![b' '; generator.index(2_000)]);
            row
        }
        2 => any_row(generator, range),
        3 => survey_row(generator, range, 1),
        _ => {
            let mut texts = field_texts(generator, range);
            texts[field::AGE] = generator.between(1, 3).to_string().into_bytes();
            joined(generator, &texts)
        }
    }
}

/// The text of a group, without headings: this many rows, the last line feed there or not.
pub fn group_text(generator: &mut Generator, range: Range, rows: usize) -> Vec<u8> {
    let rows: Vec<Vec<u8>> = (0..rows).map(|_| group_row(generator, range)).collect();
    let mut text = rows.join(&b'\n');
    // An empty last row is one by its line feed alone.
    if rows.last().is_some_and(|last| last.is_empty() || !generator.once_in(3)) {
        text.push(b'\n');
    }
    text
}
