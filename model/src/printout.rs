//! `leadline`'s printout, as a function of the bytes of the two files.

use crate::engine::{read_files, run};
use crate::refusal::ACCEPTED;
use crate::state::MONTHS;
use crate::uptake::{day_routes, Routes};

/// Blood figures over this are marked, thousandths of µg/dL.
pub const WARNING_OVER: u32 = 30_000;

/// Blood in µg/dL, rounded half up to one decimal.
pub fn decimals(blood: u32) -> String {
    let tenths = (u64::from(blood) + 50) / 100;
    format!("{}.{}", tenths / 10, tenths % 10)
}

/// The first three fields of a month's line: the month, its blood and its mark.
pub fn blood_fields(month: usize, blood: u32) -> String {
    let flag = if blood > WARNING_OVER { 'W' } else { '-' };
    format!("{month} {} {flag}", decimals(blood))
}

/// A month's line without its newline: behind the blood, the passive and the active parts of a day's uptake, each
/// the sum of the five eaten media, pg.
pub fn month_line(month: usize, blood: u32, routes: &Routes) -> String {
    format!("{} {} {}", blood_fields(month, blood), routes.all_passive(), routes.all_active())
}

/// The last line after a refusal, without its newline.
pub fn refusal_line(number: u32, months: u32) -> String {
    format!("refused {number} after {months}")
}

/// The routes of the months that a run has done.
fn routes_done(site: &[u8], book: &[u8], months: usize) -> Vec<Routes> {
    if months == 0 {
        return Vec::new();
    }
    let (site, book) = read_files(site, None, book).expect("files with a month done are accepted");
    (1..=months).map(|month| day_routes(&site, &book, month).expect("a month done was not refused")).collect()
}

/// The whole printout; a missing file is handed in as no bytes.
pub fn printout(site: &[u8], book: &[u8]) -> Vec<u8> {
    let mut blood = [0; MONTHS];
    let answer = run(site, book, &mut blood);
    let mut text = String::new();
    for (month, routes) in (1..).zip(routes_done(site, book, answer.months as usize)) {
        text.push_str(&month_line(month, blood[month - 1], &routes));
        text.push('\n');
    }
    if answer.number != ACCEPTED {
        text.push_str(&refusal_line(answer.number, answer.months));
        text.push('\n');
    }
    text.into_bytes()
}
