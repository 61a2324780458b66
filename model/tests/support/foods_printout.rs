//! What `examples/foods.c` is to print, by the model.

use jurengate_model::engine::run_foods;
use jurengate_model::foods::read_foods;
use jurengate_model::printout::{blood_fields, refusal_line};
use jurengate_model::refusal::ACCEPTED;
use jurengate_model::state::MONTHS;

/// The shares of a foods block that is sound, then a line for each month with month, blood and mark as `leadline` has
/// them, for the three files of a card. The C calls answer no routes, so there are none here.
pub fn foods_printout(site: &[u8], foods: &[u8], book: &[u8]) -> String {
    let mut lines = Vec::new();
    if let Ok(read) = read_foods(foods) {
        let [vegetable, fruit, fish, game] = read.local_shares;
        lines.push(format!(
            "of vegetable {vegetable} % and of fruit {fruit} % home-grown, of meat {fish} % fish and {game} % game"
        ));
    }
    let mut blood = [0; MONTHS];
    let answer = run_foods(site, Some(foods), book, &mut blood);
    let done = blood.iter().take(answer.months as usize).enumerate();
    lines.extend(done.map(|(index, &figure)| blood_fields(index + 1, figure)));
    if answer.number != ACCEPTED {
        lines.push(refusal_line(answer.number, answer.months));
    }
    lines.iter().map(|line| format!("{line}\n")).collect()
}
