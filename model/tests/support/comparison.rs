//! Engine and model called on the same files, their answers compared and counted.

use jurengate_model::block::{self, BLOCK_BYTES};
use jurengate_model::card::{self, RowCall};
use jurengate_model::convert;
use jurengate_model::engine::{self, BirthAnswer, MonthAnswer, RunAnswer};
use jurengate_model::ffi;
use jurengate_model::foods;
use jurengate_model::random::Generator;
use jurengate_model::refusal::number_of;
use jurengate_model::site::{self, SITE_FIELDS};
use jurengate_model::state::{State, MONTHS};
use std::sync::atomic::{AtomicUsize, Ordering};

/// Lent lists are filled with this beforehand.
pub const BEFORE: u32 = 0x5EED_5EED;

/// Calls compared by all tests so far; the last line printed has them all.
static COMPARED: AtomicUsize = AtomicUsize::new(0);

/// Counts the calls that were held to the model, and prints them at the end.
pub struct Comparison {
    what: &'static str,
    calls: usize,
    pub accepted: usize,
}

#[allow(dead_code)] // not every file of tests makes every call
impl Comparison {
    pub fn new(what: &'static str) -> Comparison {
        Comparison { what, calls: 0, accepted: 0 }
    }

    fn count(&mut self, number: u32) -> u32 {
        self.calls += 1;
        self.accepted += usize::from(number == 0);
        number
    }

    pub fn read_site(&mut self, site: &[u8]) -> u32 {
        let model = site::read_site(site);
        let fields = model.unwrap_or([0; SITE_FIELDS]);
        assert_eq!(ffi::read_site(site), (number_of(&model), fields), "{}", self.what);
        self.count(number_of(&model))
    }

    pub fn read_places(&mut self, site: &[u8]) -> u32 {
        let model = site::read_places(site);
        let places = model.unwrap_or_default();
        assert_eq!(ffi::read_places(site), (number_of(&model), places), "{}", self.what);
        self.count(number_of(&model))
    }

    pub fn convert_to_2(&mut self, site: &[u8], target_length: usize) -> u32 {
        self.convert(convert::to_edition_2, ffi::site_to_edition_2, site, target_length)
    }

    pub fn convert_to_1(&mut self, site: &[u8], target_length: usize) -> u32 {
        self.convert(convert::to_edition_1, ffi::site_to_edition_1, site, target_length)
    }

    fn convert(
        &mut self,
        by_model: convert::Converter,
        by_engine: fn(&[u8], &mut [u8]) -> u32,
        site: &[u8],
        target_length: usize,
    ) -> u32 {
        let (mut due, mut target) = (vec![0x77; target_length], vec![0x77; target_length]);
        let model = number_of(&by_model(site, &mut due));
        assert_eq!(by_engine(site, &mut target), model, "{}", self.what);
        assert_eq!(target, due, "{}", self.what);
        self.count(model)
    }

    pub fn read_foods(&mut self, foods: &[u8]) -> u32 {
        let model = foods::read_foods(foods);
        let figures = model.unwrap_or_default().figures();
        assert_eq!(ffi::read_foods(foods), (number_of(&model), figures), "{}", self.what);
        self.count(number_of(&model))
    }

    pub fn write_block(&mut self, body: &[u8], target_length: usize) -> u32 {
        let (mut due, mut target) = (vec![0x77; target_length], vec![0x77; target_length]);
        let model = number_of(&block::write_block(body, &mut due));
        assert_eq!(ffi::write_block(body, &mut target), model, "{}", self.what);
        assert_eq!(target, due, "{}", self.what);
        self.count(model)
    }

    pub fn birth(&mut self, site: &[u8], book: &[u8]) -> BirthAnswer {
        self.birth_foods(site, None, book)
    }

    pub fn birth_foods(&mut self, site: &[u8], foods: Option<&[u8]>, book: &[u8]) -> BirthAnswer {
        let model = engine::birth_foods(site, foods, book);
        assert_eq!(ffi::birth_foods(site, foods, book), model, "{}", self.what);
        self.count(model.number);
        model
    }

    pub fn month(&mut self, site: &[u8], book: &[u8], state: &State) -> MonthAnswer {
        self.month_foods(site, None, book, state)
    }

    pub fn month_foods(
        &mut self,
        site: &[u8],
        foods: Option<&[u8]>,
        book: &[u8],
        state: &State,
    ) -> MonthAnswer {
        let model = engine::month_foods(site, foods, book, state);
        let answer = ffi::month_foods(site, foods, book, state);
        assert_eq!(answer, model, "{} from {state:?}", self.what);
        self.count(model.number);
        answer
    }

    pub fn run(&mut self, site: &[u8], book: &[u8], length: usize) -> RunAnswer {
        self.run_foods(site, None, book, length)
    }

    pub fn run_foods(&mut self, site: &[u8], foods: Option<&[u8]>, book: &[u8], length: usize) -> RunAnswer {
        let (mut due, mut blood) = (vec![BEFORE; length], vec![BEFORE; length]);
        let model = engine::run_foods(site, foods, book, &mut due);
        assert_eq!(ffi::run_foods(site, foods, book, &mut blood), model, "{}", self.what);
        assert_eq!(blood, due, "{}", self.what);
        self.count(model.number);
        model
    }

    pub fn card_row(&mut self, site: &[u8], foods: Option<&[u8]>, book: &[u8], row: &[u8]) -> RowCall {
        self.card_rows(site, foods, book, [row])[0]
    }

    /// The rows of one card, each in a call of its own; the model reads the files once.
    pub fn card_rows<'a>(
        &mut self,
        site: &[u8],
        foods: Option<&[u8]>,
        book: &[u8],
        rows: impl IntoIterator<Item = &'a [u8]>,
    ) -> Vec<RowCall> {
        let rows: Vec<&[u8]> = rows.into_iter().collect();
        let model = card::answers(site, foods, book, rows.iter().copied());
        let answers = rows.iter().zip(model).map(|(row, model)| {
            let answer = ffi::card_row(site, foods, book, row);
            assert_eq!(answer, model.into(), "{}: {:?}", self.what, String::from_utf8_lossy(row));
            self.count(answer.number);
            answer
        });
        answers.collect()
    }

    /// Every call that takes a site file alone.
    pub fn all_of_site(&mut self, site: &[u8]) {
        self.read_site(site);
        self.read_places(site);
        self.convert_to_2(site, BLOCK_BYTES);
        self.convert_to_1(site, BLOCK_BYTES);
    }

    /// Every call that takes files.
    pub fn all(&mut self, site: &[u8], book: &[u8], state: &State) {
        self.all_of_site(site);
        self.birth(site, book);
        self.month(site, book, state);
        self.run(site, book, MONTHS);
    }

    /// Every call that takes a foods block.
    pub fn all_foods(&mut self, site: &[u8], foods: &[u8], book: &[u8], state: &State) {
        self.read_foods(foods);
        self.birth_foods(site, Some(foods), book);
        self.month_foods(site, Some(foods), book, state);
        self.run_foods(site, Some(foods), book, MONTHS);
    }
}

impl Drop for Comparison {
    fn drop(&mut self) {
        if !std::thread::panicking() {
            let all = COMPARED.fetch_add(self.calls, Ordering::Relaxed) + self.calls;
            let Comparison { what, calls, accepted } = self;
            println!("{what}: {calls} calls compared, {accepted} of them accepted; {all} compared so far");
        }
    }
}

/// A length that is mostly the right one.
#[allow(dead_code)] // rows have no list
pub fn list_length(generator: &mut Generator) -> usize {
    match generator.index(6) {
        0 => [0, 1, 42, 83, 85, 168][generator.index(6)],
        _ => MONTHS,
    }
}
