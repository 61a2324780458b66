//! Edits of a card, a row and a state, each as a few bytes of the input ask for.

use crate::case::Case;
use crate::tape::Tape;
use jurengate_model::block::{self, BLOCK_BYTES, EDITION_AT, NUMBER_AT};
use jurengate_model::book::{self, Row, BLOCK_ROWS, BOOK_BLOCKS, BOOK_BYTES, ROW_FIELDS};
use jurengate_model::card::{self, CARD_FIELDS};
use jurengate_model::cards;
use jurengate_model::foods::{local, Foods, FOODS, GRAMS_MOST, LEAD_MOST, LOCAL_FOODS};
use jurengate_model::random::{self, INTAKES};
use jurengate_model::site::{
    self, place, AGES, EDITION_2, PLACES, PLACE_DUST_MOST, PLACE_FIGURES, PLACE_SHARES_MOST, SITE_FIELDS,
};
use jurengate_model::state::State;

/// 32-bit words between a block's header and its check, reserved ones too.
const BLOCK_WORDS: usize = 126;

/// From this first byte on, an edited block is left unsealed.
const UNSEALED_FROM: u8 = 0xE0;

/// Makes one edit.
pub fn edit(tape: &mut Tape, case: &mut Case) {
    let what = tape.byte();
    let seal = what < UNSEALED_FROM;
    match what % 28 {
        0 => edit_block(tape, case, seal, put_word),
        1 => edit_block(tape, case, seal, put_header),
        2 => edit_block(tape, case, seal, turn_bits),
        3 => edit_block(tape, case, seal, break_row),
        4 => edit_site(tape, case, seal, break_intake),
        5 => resize(tape, case),
        6 => swap_blocks(tape, case),
        7 => case.list_off = tape.byte() as i8,
        8 | 9 => put_state(tape, case),
        10 | 11 => add_state(tape, case),
        12 | 13 => edit_site(tape, case, seal, put_limit),
        14 | 15 => edit_block(tape, case, seal, put_row_number),
        16 => edit_foods(tape, case, seal, put_food_limit),
        17 => edit_foods(tape, case, seal, put_food_figure),
        18 => edit_foods(tape, case, seal, put_shares),
        19 => edit_foods(tape, case, seal, break_diet),
        20 => edit_row(tape, case, put_field_text),
        21 => put_byte(tape, case),
        22 => edit_row(tape, case, put_field_figure),
        24 => edit_site_block(tape, case, seal, put_edition),
        25 => edit_site_block(tape, case, seal, put_place),
        26 => edit_site_block(tape, case, seal, put_place_shares),
        27 => edit_site_block(tape, case, seal, break_place),
        _ => case.has_foods = tape.index(2) == 1,
    }
}

/// Edits the site file, the foods block or a block of the book, if it is there whole.
fn edit_block(tape: &mut Tape, case: &mut Case, seal: bool, change: fn(&mut Tape, &mut [u8])) {
    let (file, number) = match tape.index(3 * BOOK_BLOCKS) {
        number if number < BOOK_BLOCKS => (&mut case.book, number),
        number if number < 2 * BOOK_BLOCKS => (&mut case.site, 0),
        _ => (&mut case.foods, 0),
    };
    let Some(block) = file.chunks_exact_mut(BLOCK_BYTES).nth(number) else { return };
    change(tape, block);
    if seal {
        cards::seal(block);
    }
}

/// Edits the fields of the site file, if it has room for them.
fn edit_site(tape: &mut Tape, case: &mut Case, seal: bool, change: fn(&mut Tape, &mut [u32; SITE_FIELDS])) {
    let Some(block) = case.site.get_mut(..BLOCK_BYTES) else { return };
    let mut fields = std::array::from_fn(|index| block::field(block, index));
    change(tape, &mut fields);
    fields.iter().enumerate().for_each(|(index, field)| cards::put_field(block, index, *field));
    if seal {
        cards::seal(block);
    }
}

/// Edits the bytes of the site file, if it has those of a block.
fn edit_site_block(tape: &mut Tape, case: &mut Case, seal: bool, change: fn(&mut Tape, &mut [u8])) {
    let Some(block) = case.site.get_mut(..BLOCK_BYTES) else { return };
    change(tape, block);
    if seal {
        cards::seal(block);
    }
}

/// Edits the figures of the foods block, if it has room for them.
fn edit_foods(tape: &mut Tape, case: &mut Case, seal: bool, change: fn(&mut Tape, &mut Foods)) {
    let Some(block) = case.foods.get_mut(..BLOCK_BYTES) else { return };
    let mut foods = Foods::of_block(block);
    change(tape, &mut foods);
    foods.put(block);
    if seal {
        cards::seal(block);
    }
}

/// Any word after the header, reserved ones too.
fn put_word(tape: &mut Tape, block: &mut [u8]) {
    cards::put_field(block, tape.index(BLOCK_WORDS), tape.number() as u32);
}

/// Block number or edition.
fn put_header(tape: &mut Tape, block: &mut [u8]) {
    let at = [NUMBER_AT, EDITION_AT][tape.index(2)];
    block[at..at + 2].copy_from_slice(&tape.word().to_le_bytes());
}

/// Any byte, the check's too.
fn turn_bits(tape: &mut Tape, block: &mut [u8]) {
    block[usize::from(tape.word()) % BLOCK_BYTES] ^= tape.byte();
}

/// One number of one row or of all five.
fn put_row_number(tape: &mut Tape, block: &mut [u8]) {
    let (rows, column, number) = (tape.index(BLOCK_ROWS + 1), tape.index(ROW_FIELDS), tape.number() as u32);
    for row in 0..BLOCK_ROWS {
        if rows == row || rows == BLOCK_ROWS {
            cards::put_field(block, ROW_FIELDS * row + column, number);
        }
    }
}

/// One limit of a good row passed, or just met if one is taken off the number again.
fn break_row(tape: &mut Tape, block: &mut [u8]) {
    let faults = random::row_faults();
    let (row, fault) = (tape.index(BLOCK_ROWS), faults[tape.index(faults.len())]);
    let before = book::row_fields(block, row);
    if !Row::of_fields(&before).within_limits() {
        return;
    }
    let mut fields = before;
    random::break_row(&mut fields, fault);
    if tape.index(2) == 1 {
        step_back(&before, &mut fields);
    }
    fields
        .iter()
        .enumerate()
        .for_each(|(index, field)| cards::put_field(block, ROW_FIELDS * row + index, *field));
}

/// Brings every changed number one nearer to what it was.
fn step_back(before: &[u32], after: &mut [u32]) {
    for (before, after) in before.iter().zip(after) {
        *after = if *after > *before { *after - 1 } else { after.saturating_add(1).min(*before) };
    }
}

/// A site field near its limits.
fn put_limit(tape: &mut Tape, fields: &mut [u32; SITE_FIELDS]) {
    let index = tape.index(SITE_FIELDS);
    let near = tape.byte() as i8;
    let limit = if tape.index(4) == 0 { site::least(index) } else { site::most(index) };
    fields[index] = limit.wrapping_add_signed(near.into());
}

/// An intake of an age past 10^9, or just within it.
fn break_intake(tape: &mut Tape, fields: &mut [u32; SITE_FIELDS]) {
    let (intake, age) = (INTAKES[tape.index(INTAKES.len())], tape.index(AGES));
    let before = *fields;
    random::break_intake(fields, intake, age);
    if tape.index(2) == 1 {
        step_back(&before, fields);
    }
}

/// An edition that there is, or one beside it.
fn put_edition(tape: &mut Tape, block: &mut [u8]) {
    set_edition(block, tape.index(4) as u16);
}

fn set_edition(block: &mut [u8], edition: u16) {
    block[EDITION_AT..EDITION_AT + 2].copy_from_slice(&edition.to_le_bytes());
}

/// Where the share of a place stands among the fields; its dust is the next.
fn share_at(at: usize) -> usize {
    SITE_FIELDS + 2 * at
}

/// A figure of a place near its limit or of any size; the edition is kept or becomes 2.
fn put_place(tape: &mut Tape, block: &mut [u8]) {
    let (figure, near) = (tape.index(PLACE_FIGURES), i32::from(tape.byte() as i8));
    let most = if figure % 2 == 0 { PLACE_SHARES_MOST } else { PLACE_DUST_MOST };
    let value = match tape.index(3) {
        0 => tape.number() as u32,
        1 => most.wrapping_add_signed(near),
        _ => near as u32 & 0x7F,
    };
    cards::put_field(block, SITE_FIELDS + figure, value);
    if tape.index(2) == 0 {
        set_edition(block, EDITION_2.number);
    }
}

/// The share of a place so that the five are as much as asked for together, in edition 2.
fn put_place_shares(tape: &mut Tape, block: &mut [u8]) {
    let (at, sum) = (tape.index(PLACES), u32::from(tape.byte()));
    let shares = (0..PLACES).map(|at| block::field(block, share_at(at)));
    let others = shares.enumerate().filter(|(other, _)| *other != at);
    let others = others.fold(0u32, |sum, (_, share)| sum.wrapping_add(share));
    cards::put_field(block, share_at(at), sum.wrapping_sub(others));
    set_edition(block, EDITION_2.number);
}

/// The dust of an age past 10^9 by that of a place with the whole share, or just within it, in edition 2.
fn break_place(tape: &mut Tape, block: &mut [u8]) {
    let (at, age, less) = (tape.index(PLACES), tape.index(AGES), tape.index(2) as u32);
    cards::put_field(block, place::WEIGHT_SOIL, 0);
    cards::put_field(block, place::EATEN + age, 247);
    (0..PLACES).for_each(|other| cards::put_field(block, share_at(other), 0));
    cards::put_field(block, share_at(at), PLACE_SHARES_MOST);
    cards::put_field(block, share_at(at) + 1, 4_048_583 - less);
    set_edition(block, EDITION_2.number);
}

/// An amount at one age or at all, or a lead, near its limit.
fn put_food_limit(tape: &mut Tape, foods: &mut Foods) {
    let (food, near) = (tape.index(FOODS + LOCAL_FOODS), i32::from(tape.byte() as i8));
    let grams = GRAMS_MOST.wrapping_add_signed(near as i16);
    match tape.index(AGES + 2) {
        age if age < AGES => foods.grams[age][food % FOODS] = grams,
        AGES => foods.grams.iter_mut().for_each(|age| age[food % FOODS] = grams),
        _ => *lead_mut(foods, food) = LEAD_MOST.wrapping_add_signed(near),
    }
}

/// An amount at one age or a lead, of any size.
fn put_food_figure(tape: &mut Tape, foods: &mut Foods) {
    let (food, number) = (tape.index(FOODS + LOCAL_FOODS), tape.number());
    match tape.index(2 * AGES) {
        age if age < AGES => foods.grams[age][food % FOODS] = number as u16,
        _ => *lead_mut(foods, food) = number as u32,
    }
}

/// The lead of a food, the fifteen first, then the local four.
fn lead_mut(foods: &mut Foods, food: usize) -> &mut u32 {
    if food < FOODS {
        &mut foods.leads[food]
    } else {
        &mut foods.local_leads[food - FOODS]
    }
}

/// One share, or fish and game so that they are as much as asked for together, in 32 bits.
fn put_shares(tape: &mut Tape, foods: &mut Foods) {
    let (local, number) = (tape.index(LOCAL_FOODS), tape.number() as u32);
    foods.local_shares[local] = number;
    if tape.index(2) == 1 {
        foods.local_shares[local::FISH] = u32::from(tape.byte()).wrapping_sub(number);
        foods.local_shares[local::GAME] = number;
    }
}

/// The diet of an age past 10^9, or just within it.
fn break_diet(tape: &mut Tape, foods: &mut Foods) {
    let (eaten, age) = (random::all_eaten(), tape.index(AGES));
    let eaten = eaten[tape.index(eaten.len())];
    match tape.index(2) {
        0 => random::break_diet(foods, eaten, age),
        _ => random::eat_alone(foods, eaten, age, 1_000, 1_000_000),
    }
}

/// Another length: near the one it has, any, or the one due.
fn resize(tape: &mut Tape, case: &mut Case) {
    let (file, due) = match tape.index(3) {
        0 => (&mut case.site, BLOCK_BYTES),
        1 => (&mut case.foods, BLOCK_BYTES),
        _ => (&mut case.book, BOOK_BYTES),
    };
    let length = match tape.index(4) {
        0 => file.len().saturating_add_signed((tape.byte() as i8).into()),
        1 => usize::from(tape.word()) % (BOOK_BYTES + BLOCK_BYTES),
        _ => due,
    };
    file.resize(length, 0);
}

/// Two blocks of the book change places, or one takes that of the site file or of the foods.
fn swap_blocks(tape: &mut Tape, case: &mut Case) {
    let (first, second) = (tape.index(BOOK_BLOCKS), tape.index(BOOK_BLOCKS + 2));
    let later = first.max(second).min(BOOK_BLOCKS);
    let Some((before, after)) = case.book.split_at_mut_checked(BLOCK_BYTES * later) else {
        return;
    };
    let one = before.chunks_exact_mut(BLOCK_BYTES).nth(first.min(second));
    let other = match second {
        ..BOOK_BLOCKS => after.get_mut(..BLOCK_BYTES),
        BOOK_BLOCKS => case.site.get_mut(..BLOCK_BYTES),
        _ => case.foods.get_mut(..BLOCK_BYTES),
    };
    if let (Some(one), Some(other)) = (one, other) {
        one.swap_with_slice(other);
    }
}

/// What a field of a row may be, and what it may not.
const FIELD_TEXTS: [&[u8]; 16] = [
    b"*",
    b"",
    b"x",
    b"0",
    b"85",
    b"84",
    b"00000001",
    b"000000001",
    b"50000.1",
    b"100.001",
    b"1000.001",
    b"101",
    b"*\t*",
    b"1\r",
    b"1 1",
    b"    ",
];

/// Edits the row, or one row of a group.
fn edit_row(tape: &mut Tape, case: &mut Case, change: fn(&mut Tape, &mut Vec<u8>)) {
    if !case.is_group {
        return change(tape, &mut case.text);
    }
    let mut rows: Vec<Vec<u8>> = case.text.split(|&byte| byte == b'\n').map(<[u8]>::to_vec).collect();
    let row = tape.index(rows.len().min(256));
    change(tape, &mut rows[row]);
    case.text = rows.join(&b'\n');
}

/// Other text for one field of the row: one of the list above, or something that is no figure.
fn put_field_text(tape: &mut Tape, row: &mut Vec<u8>) {
    let (field, which) = (tape.index(CARD_FIELDS), tape.index(FIELD_TEXTS.len() + random::NO_FIGURES.len()));
    let text = FIELD_TEXTS.iter().chain(&random::NO_FIGURES).nth(which).expect("one of both lists");
    put_field(row, field, text);
}

/// A figure for one field of the row, near a number at which a rule changes.
fn put_field_figure(tape: &mut Tape, row: &mut Vec<u8>) {
    let (field, number, decimals) = (tape.index(CARD_FIELDS), tape.number(), tape.index(5));
    let figure = match decimals {
        0 => number.to_string(),
        _ => format!("{}.{:0>decimals$}", number / 1_000, number % 10u64.pow(decimals as u32)),
    };
    put_field(row, field, figure.as_bytes());
}

/// The row with one field changed, if it has that field.
fn put_field(row: &mut Vec<u8>, field: usize, text: &[u8]) {
    let mut fields = card::fields(row);
    if let Some(old) = fields.get_mut(field) {
        *old = text;
    }
    *row = fields.join(&b' ');
}

/// A byte of the row, or of a group's text, turned, put in or taken out.
fn put_byte(tape: &mut Tape, case: &mut Case) {
    let (text, place) = (&mut case.text, if case.is_group { tape.word() } else { tape.byte().into() });
    let (at, byte) = (usize::from(place) % (text.len() + 1), tape.byte());
    match tape.index(3) {
        0 if at < text.len() => text[at] = byte,
        1 if at < text.len() => drop(text.remove(at)),
        _ => text.insert(at, byte),
    }
}

/// One number of the state.
fn put_state(tape: &mut Tape, case: &mut Case) {
    let mut numbers = case.state.to_numbers();
    numbers[tape.index(11)] = tape.number();
    case.state = State::from_numbers(numbers);
}

/// A little more or less of one number of the state.
fn add_state(tape: &mut Tape, case: &mut Case) {
    let mut numbers = case.state.to_numbers();
    let number = &mut numbers[tape.index(11)];
    *number = number.wrapping_add_signed((tape.byte() as i8).into());
    case.state = State::from_numbers(numbers);
}
