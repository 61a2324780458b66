//! An input read as one call: which, on which card and state, edited how.

use crate::edit::edit;
use crate::tape::Tape;
use jurengate_model::block::BLOCK_BYTES;
use jurengate_model::card::field;
use jurengate_model::cards;
use jurengate_model::group::GROUP_ROWS;
use jurengate_model::random::{self, Generator, Range, TextFault};
use jurengate_model::state::{State, MONTHS};

/// Longest site file that is lent.
const SITE_ROOM: usize = 2 * BLOCK_BYTES;
/// Longest foods block that is lent.
const FOODS_ROOM: usize = 2 * BLOCK_BYTES;
/// Longest book that is lent.
const BOOK_ROOM: usize = 19 * BLOCK_BYTES;
/// Longest row that is lent.
const ROW_ROOM: usize = 1024;
/// Longest text of a group that is lent.
const TEXT_ROOM: usize = 8192;
/// From this first byte on, the bytes of an input stand for themselves.
const RAW_FROM: u8 = 0xE0;
/// Edits that one input may make.
const EDITS: usize = 48;

/// The calls, numbered as `enum call` of case.h.
#[derive(Clone, Copy, PartialEq, Eq)]
#[repr(u32)]
enum Call {
    ReadSite,
    ReadBook,
    WriteBlock,
    Birth,
    Month,
    Run,
    ReadFoods,
    BirthFoods,
    MonthFoods,
    RunFoods,
    CardRow,
    CardGroup,
    ReadPlaces,
    SiteToEdition2,
    SiteToEdition1,
}

impl Call {
    /// Whether it fills a target of a block's length.
    fn has_target(self) -> bool {
        matches!(self, Call::WriteBlock | Call::SiteToEdition2 | Call::SiteToEdition1)
    }
}

/// A run takes as long as 84 months, so it is drawn seldom.
const CALLS: [Call; 32] = {
    use Call::*;
    [
        Month,
        ReadSite,
        Birth,
        SiteToEdition1,
        WriteBlock,
        ReadBook,
        SiteToEdition2,
        ReadPlaces,
        Month,
        Month,
        Birth,
        SiteToEdition1,
        Month,
        Run,
        CardRow,
        CardGroup,
        MonthFoods,
        ReadFoods,
        BirthFoods,
        MonthFoods,
        MonthFoods,
        ReadFoods,
        BirthFoods,
        MonthFoods,
        CardRow,
        CardGroup,
        ReadFoods,
        MonthFoods,
        BirthFoods,
        RunFoods,
        CardRow,
        CardGroup,
    ]
};

macro_rules! sample {
    ($name:literal) => {
        (
            include_bytes!(concat!("../../samples/", $name, "/site.lkb")),
            include_bytes!(concat!("../../samples/", $name, "/book.lkb")),
        )
    };
}

/// The sample cards.
const SAMPLES: [(&[u8], &[u8]); 5] = [
    sample!("default"),
    sample!("heavy"),
    sample!("refused-intake"),
    sample!("refused-burden"),
    sample!("daycare"),
];

/// The sample foods block, which every sample card takes.
const SAMPLE_FOODS: &[u8] = include_bytes!("../../samples/foods/foods.lkb");

/// What a call is made on.
pub struct Case {
    /// The site file; the writer takes it without its last four bytes.
    pub site: Vec<u8>,
    /// The foods block.
    pub foods: Vec<u8>,
    /// The rate book.
    pub book: Vec<u8>,
    /// The row of a batch card, or the text of a group's rows.
    pub text: Vec<u8>,
    /// Whether the text is a group's.
    pub is_group: bool,
    /// Whether the row or the group has the foods block beside it.
    pub has_foods: bool,
    /// The state handed to the month call.
    pub state: State,
    /// How far the length of the run's list or of a target is from the one due.
    pub list_off: i8,
}

/// `struct fuzz_case` of case.h.
#[repr(C)]
pub struct LentCase {
    call: u32,
    sides: u32,
    has_foods: bool,
    site_len: usize,
    foods_len: usize,
    book_len: usize,
    text_len: usize,
    list_len: usize,
    state: [u64; 11],
    site: [u8; SITE_ROOM],
    foods: [u8; FOODS_ROOM],
    book: [u8; BOOK_ROOM],
    text: [u8; TEXT_ROOM],
}

/// Reads an input as a call.
///
/// # Safety
/// `input` points to `size` bytes and `lent` to a case that may be written.
#[no_mangle]
pub unsafe extern "C" fn fuzz_case_of(input: *const u8, size: usize, lent: *mut LentCase) {
    // SAFETY: as the caller promises; libFuzzer lends no null pointer, even for no bytes.
    let (input, lent) = unsafe { (std::slice::from_raw_parts(input, size), &mut *lent) };
    let mut tape = Tape::new(input);
    let form = tape.byte();
    let call = CALLS[usize::from(form) % CALLS.len()];
    lent.call = call as u32;
    // There are more memories than a byte has bits: each bit is the side of two.
    lent.sides = 0x101 * u32::from(tape.byte());
    let is_group = call == Call::CardGroup;
    let case = if form >= RAW_FROM { raw(&mut tape, is_group) } else { built(&mut tape, is_group) };
    lend(case, call, lent);
}

/// A card and a state chosen, then edited to the input's end.
fn built(tape: &mut Tape, is_group: bool) -> Case {
    let (site, foods, book) = card(tape);
    let state = state(tape);
    let text = if is_group { group(tape) } else { row(tape) };
    let mut case = Case { site, foods, book, text, is_group, has_foods: true, state, list_off: 0 };
    for _ in 0..EDITS {
        if tape.is_spent() {
            break;
        }
        edit(tape, &mut case);
    }
    case
}

/// A sample card, or a random one with up to three faults.
fn card(tape: &mut Tape) -> (Vec<u8>, Vec<u8>, Vec<u8>) {
    let range = match tape.index(8) {
        5 => Range::Near,
        6 => Range::Wide,
        7 => Range::Limits,
        sample => {
            let (site, book) = SAMPLES[sample % SAMPLES.len()];
            return (site.to_vec(), SAMPLE_FOODS.to_vec(), book.to_vec());
        }
    };
    let mut generator = Generator::new(tape.word().into());
    random::card_with_foods(&mut generator, range, tape.index(4))
}

/// An empty child, a true state, one at a burden, or any.
fn state(tape: &mut Tape) -> State {
    let kind = tape.index(4);
    let mut generator = Generator::new(tape.word().into());
    match kind {
        0 => State::default(),
        1 => random::state(&mut generator, false),
        2 => random::burdened(&mut generator, tape.byte().into(), tape.number()),
        _ => random::any_state(&mut generator),
    }
}

/// A random row, whole or with faults, mostly of a child so young that its months are few.
fn row(tape: &mut Tape) -> Vec<u8> {
    let (range, faults, age) = (Range::of_turn(tape.index(3)), tape.index(6) / 2, tape.index(16));
    let mut generator = Generator::new(tape.word().into());
    let mut texts = random::field_texts(&mut generator, range);
    if age > 0 {
        texts[field::AGE] = age.min(3).to_string().into_bytes();
    }
    let faults: Vec<TextFault> = (0..faults).map(|_| random::text_fault(&mut generator)).collect();
    random::break_texts(&mut texts, &faults);
    random::joined(&mut generator, &texts)
}

/// The text of a group: a few rows like the one above, or about as many as a group takes, most of them then short.
fn group(tape: &mut Tape) -> Vec<u8> {
    let (few, ends) = (tape.index(6), tape.byte());
    let mut rows: Vec<Vec<u8>> = (0..few).map(|_| row(tape)).collect();
    if ends & 1 == 1 {
        let count = GROUP_ROWS - 3 + tape.index(6);
        let short: [&[u8]; 3] = [b"", b"A1", b"A1 1 1 0 1 1 * * * * * *"];
        let filled: Vec<Vec<u8>> = (few..count).map(|turn| short[turn % short.len()].to_vec()).collect();
        rows = if tape.index(2) == 0 { [rows, filled].concat() } else { [filled, rows].concat() };
    }
    let mut text = rows.join(&b'\n');
    if ends & 2 == 0 && !rows.is_empty() {
        text.push(b'\n');
    }
    text
}

/// What is left of the input, cut in four; the blocks are sealed if it says so.
fn raw(tape: &mut Tape, is_group: bool) -> Case {
    let seals = tape.byte();
    let list_off = tape.byte() as i8;
    let state = state(tape);
    let lengths = [tape.word(), tape.word(), tape.word()].map(usize::from);
    let mut rest = tape.rest();
    let mut cut = |length: usize| {
        let (part, behind) = rest.split_at(length.min(rest.len()));
        rest = behind;
        part.to_vec()
    };
    let (text, site, foods, book) = (cut(lengths[2]), cut(lengths[0]), cut(lengths[1]), cut(usize::MAX));
    let mut case = Case { site, foods, book, text, is_group, has_foods: seals & 8 == 0, state, list_off };
    for (bit, file) in [(1, &mut case.site), (2, &mut case.book), (4, &mut case.foods)] {
        if seals & bit != 0 {
            file.chunks_exact_mut(BLOCK_BYTES).for_each(cards::seal);
        }
    }
    case
}

fn lend(case: Case, call: Call, lent: &mut LentCase) {
    let site =
        if call == Call::WriteBlock { &case.site[..case.site.len().saturating_sub(4)] } else { &case.site };
    let list_due = if call.has_target() { BLOCK_BYTES } else { MONTHS };
    lent.site_len = copy(site, &mut lent.site);
    lent.foods_len = copy(&case.foods, &mut lent.foods);
    lent.book_len = copy(&case.book, &mut lent.book);
    let room = if case.is_group { TEXT_ROOM } else { ROW_ROOM };
    lent.text_len = copy(&case.text, &mut lent.text[..room]);
    lent.has_foods = case.has_foods;
    lent.list_len = list_due.saturating_add_signed(case.list_off.into());
    lent.state = case.state.to_numbers();
}

/// Copies as much as there is room for, and says how much that was.
fn copy(from: &[u8], to: &mut [u8]) -> usize {
    let length = from.len().min(to.len());
    to[..length].copy_from_slice(&from[..length]);
    length
}
