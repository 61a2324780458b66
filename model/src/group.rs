//! A school in one go (request 4 of document 02): up to 64 rows of a batch card over one reading of their files, all
//! children together month by month, and how many blocks of the book were decoded for them.

use crate::book::Book;
use crate::card::{lines, Files, RowAnswer};
use crate::engine::{newborn, walk_month};
use crate::site::Site;
use crate::state::{State, MONTHS};

/// Most rows of a group.
pub const GROUP_ROWS: usize = 64;
/// Places of the lent list: a pair for each row.
pub const GROUP_ANSWERS: usize = 2 * GROUP_ROWS;

/// The first number of a row's pair.
pub mod kind {
    /// The second is the blood at AGE.
    pub const BLOOD: u32 = 0;
    /// The row is skipped; the second is 0.
    pub const SKIPPED: u32 = 1;
    /// The second is the refusal's number.
    pub const REFUSED: u32 = 2;
}

/// What a group answers.
#[derive(Clone, Debug, PartialEq, Eq)]
pub struct Group {
    /// The answer of each row that was taken, in the text's order.
    pub answers: Vec<RowAnswer>,
    /// Blocks of the book that were decoded.
    pub decodes: u32,
    /// Where the first row that was not taken starts; the text's length if there is none.
    pub next: usize,
}

/// What the call of a group answers beside the lent list.
#[derive(Clone, Copy, Debug, PartialEq, Eq)]
pub struct GroupCall {
    /// Rows taken: that many pairs are written.
    pub rows: u32,
    /// Blocks of the book that were decoded.
    pub decodes: u32,
    /// Where the first row that was not taken starts; the text's length if there is none.
    pub next: usize,
}

/// The first rows of a text without headings, 64 at most, and where the next one starts.
fn first_rows(text: &[u8]) -> (Vec<&[u8]>, usize) {
    let mut rows = lines(text);
    rows.truncate(GROUP_ROWS);
    // Each row has a line feed behind it, but for the last one of a text that ends without.
    let next = rows.iter().map(|row| row.len() + 1).sum::<usize>().min(text.len());
    (rows, next)
}

/// A child of a group: on its way to its AGE, or at rest with its row's answer.
enum Child {
    Lives { site: Box<Site>, age: usize, state: State },
    Rests(RowAnswer),
}

impl Child {
    /// A row's newborn, or what the row answers without one.
    fn born(files: &Files, row: &[u8]) -> Child {
        let asked = match files.asked(row) {
            Err(refusal) => return Child::Rests(RowAnswer::Refused(refusal)),
            Ok(None) => return Child::Rests(RowAnswer::Skipped),
            Ok(Some(asked)) => asked,
        };
        let site = Box::new(files.site(&asked));
        match newborn(&site, &files.book) {
            Err(refusal) => Child::Rests(RowAnswer::Refused(refusal)),
            Ok(state) => Child::Lives { site, age: asked.month, state },
        }
    }

    /// One month further, if the child is on its way.
    fn live_a_month(self, book: &Book) -> Child {
        let Child::Lives { site, age, state } = self else { return self };
        match walk_month(&site, book, &state, &mut |_| {}) {
            Err(refusal) => Child::Rests(RowAnswer::Refused(refusal)),
            Ok((state, blood)) if state.month == age as u64 => Child::Rests(RowAnswer::Blood(blood)),
            Ok((state, _)) => Child::Lives { site, age, state },
        }
    }

    /// The answer of a child at rest.
    fn answer(self) -> RowAnswer {
        match self {
            Child::Rests(answer) => answer,
            Child::Lives { .. } => unreachable!("no AGE is over 84"),
        }
    }
}

/// The answers of rows over files that are read: every child is brought to a month before any to the next.
fn live_together(files: &Files, rows: &[&[u8]]) -> Vec<RowAnswer> {
    let mut children: Vec<Child> = rows.iter().map(|row| Child::born(files, row)).collect();
    for _month in 1..=MONTHS {
        children = children.into_iter().map(|child| child.live_a_month(&files.book)).collect();
    }
    children.into_iter().map(Child::answer).collect()
}

/// A group: the first rows of a text without headings over the bytes of the files, whose refusal is every row's.
pub fn group(site: &[u8], foods: Option<&[u8]>, book: &[u8], text: &[u8]) -> Group {
    let (rows, next) = first_rows(text);
    let mut decodes = 0;
    let answers = match Files::read_counted(site, foods, book, &mut decodes) {
        Err(refusal) => vec![RowAnswer::Refused(refusal); rows.len()],
        Ok(files) => live_together(&files, &rows),
    };
    Group { answers, decodes, next }
}

/// A row's answer as its pair of numbers.
pub fn pair(answer: RowAnswer) -> [u32; 2] {
    match answer {
        RowAnswer::Blood(blood) => [kind::BLOOD, blood],
        RowAnswer::Skipped => [kind::SKIPPED, 0],
        RowAnswer::Refused(refusal) => [kind::REFUSED, refusal.number()],
    }
}

/// The call of a group: the pairs stand at the list's beginning, and the rest of it is kept.
pub fn card_group(
    site: &[u8],
    foods: Option<&[u8]>,
    book: &[u8],
    text: &[u8],
    list: &mut [u32; GROUP_ANSWERS],
) -> GroupCall {
    let Group { answers, decodes, next } = group(site, foods, book, text);
    for (places, &answer) in list.chunks_exact_mut(2).zip(&answers) {
        places.copy_from_slice(&pair(answer));
    }
    GroupCall { rows: answers.len() as u32, decodes, next }
}
