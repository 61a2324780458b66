//! From the text to the figures of a card, with every mistake in it.

use super::keys::{index_of, key_of, Key, Place, KEYS};
use super::spelling::nearest_key;
use super::{Card, Fields};
use crate::foods::{local, Foods};
use crate::leaflet::leaflet;
use crate::site::{away, place, AGES};
use std::fmt;

/// What is wrong with a text, and on which line, from 1.
#[derive(Clone, Debug, PartialEq, Eq)]
pub struct Mistake {
    /// The line.
    pub line: usize,
    /// What to mend.
    pub what: String,
}

impl fmt::Display for Mistake {
    fn fmt(&self, f: &mut fmt::Formatter) -> fmt::Result {
        write!(f, "line {}: {}", self.line, self.what)
    }
}

/// What a text without mistakes says.
#[derive(Clone, Debug, PartialEq, Eq)]
pub struct Figures {
    /// The card's figures; what the text leaves out has its published default, without a key of a place there are no
    /// places, and without a key of a food there is no foods block.
    pub card: Card,
    /// The line that gives each key, in the order of `KEYS`, if one does.
    pub lines: [Option<usize>; KEYS.len()],
}

/// Most digits that a figure may have, so that no product overflows.
const DIGITS_MOST: usize = 10;

/// A decimal figure times 10^decimals, exactly.
fn scaled(text: &str, decimals: usize) -> Result<u64, String> {
    let (whole, part) = text.split_once('.').unwrap_or((text, "0"));
    let digits = |text: &str| !text.is_empty() && text.bytes().all(|byte| byte.is_ascii_digit());
    if !digits(whole) || !digits(part) {
        return Err("is not a figure such as 200 or 0.9".to_string());
    }
    let part = part.trim_end_matches('0');
    if part.len() > decimals {
        return Err(match decimals {
            0 => "must be a whole number".to_string(),
            _ => format!("has more than {decimals} decimals"),
        });
    }
    let whole = whole.trim_start_matches('0');
    if whole.len() > DIGITS_MOST {
        return Err("is too long".to_string());
    }
    let joined = format!("0{whole}{part:0<decimals$}");
    joined.parse().map_err(|_| "is too long".to_string())
}

impl Key {
    /// What is wrong with a value that people write as `text`, if it is outside the limits.
    fn limit_mistake(&self, value: u64, text: &str) -> Option<String> {
        if value < self.least().into() {
            return Some(format!("{}: {text} is below {}", self.name, self.with_unit(self.least())));
        }
        if value > self.most().into() {
            return Some(format!(
                "{}: {text} is over the limit of {}",
                self.name,
                self.with_unit(self.most())
            ));
        }
        None
    }

    /// Reads one figure into its field's whole number and holds it to the limits.
    fn read(&self, text: &str) -> Result<u32, String> {
        let value = scaled(text, self.decimals).map_err(|why| format!("{}: `{text}` {why}", self.name))?;
        match self.limit_mistake(value, text) {
            Some(mistake) => Err(mistake),
            None => Ok(value as u32),
        }
    }

    /// Reads the right-hand side, one figure for all or one per age, or says all that is wrong with it.
    fn read_all(&self, right: &str) -> Result<Vec<u32>, Vec<String>> {
        let (mut values, mut mistakes) = (Vec::new(), Vec::new());
        for figure in right.split_whitespace() {
            match self.read(figure) {
                Ok(value) => values.push(value),
                Err(mistake) => mistakes.push(mistake),
            }
        }
        let figures = values.len() + mistakes.len();
        if figures != 1 && figures != self.count {
            let due = if self.count == 1 { "one figure" } else { "one figure, or seven for ages 0 to 6" };
            mistakes.insert(0, format!("{} takes {due}, not {figures}", self.name));
        }
        if mistakes.is_empty() {
            Ok((0..self.count).map(|index| values[index % values.len()]).collect())
        } else {
            Err(mistakes)
        }
    }
}

/// Shares of one amount, %, which are together at most the whole.
type Shares = &'static [Place];

const WATER_SHARES: Shares = &[Place::Site(place::FIRST_DRAW_SHARE), Place::Site(place::FOUNTAIN_SHARE)];
const PLACE_SHARES: Shares = &[
    Place::AwayShare(away::WORK),
    Place::AwayShare(away::SCHOOL),
    Place::AwayShare(away::DAYCARE),
    Place::AwayShare(away::SECOND_HOME),
    Place::AwayShare(away::OTHER),
];
const MEAT_SHARES: Shares = &[Place::Share(local::FISH), Place::Share(local::GAME)];

/// The most of some shares together: the water's by the leaflet's rule, the others' as of each alone.
fn most_together(shares: Shares) -> u32 {
    if shares == WATER_SHARES {
        leaflet().shares_most
    } else {
        key_of(shares[0]).most()
    }
}

/// What is wrong with some shares together.
fn shares_mistake(card: &Card, shares: Shares) -> Option<String> {
    let keys: Vec<&Key> = shares.iter().map(|&share| key_of(share)).collect();
    let sum: u64 = keys.iter().map(|key| u64::from(key.of(card)[0])).sum();
    let most = most_together(shares);
    let names: Vec<&str> = keys.iter().map(|key| key.name).collect();
    let (last, others) = names.split_last().expect("two shares at least");
    let told = format!("{} and {last} are {sum} % together, over {most} %", others.join(", "));
    (sum > most.into()).then_some(told)
}

/// Every figure of some keys that is outside its limits, and their shares, in words.
fn outside<'a>(card: &Card, keys: impl Iterator<Item = &'a Key>, shares: &[Shares]) -> Vec<String> {
    let mut told = Vec::new();
    for key in keys {
        for (age, value) in key.of(card).into_iter().enumerate() {
            let shown = key.shown(value);
            let text = if key.count == AGES { format!("{shown} at age {age}") } else { shown };
            told.extend(key.limit_mistake(value.into(), &text));
        }
    }
    told.extend(shares.iter().filter_map(|shares| shares_mistake(card, shares)));
    told
}

/// Every figure of a card's site file that is outside its limits, in words.
pub fn outside_site(card: &Card) -> Vec<String> {
    outside(card, KEYS.iter().filter(|key| !key.is_of_foods()), &[WATER_SHARES, PLACE_SHARES])
}

/// Every figure of a foods block that is outside its limits, in words.
pub fn outside_foods(foods: &Foods) -> Vec<String> {
    let card = Card { foods: Some(*foods), ..Card::published() };
    outside(&card, KEYS.iter().filter(|key| key.is_of_foods()), &[MEAT_SHARES])
}

/// What to say of a word that is no key.
fn no_key(word: &str) -> String {
    match nearest_key(word) {
        Some(key) => format!("`{word}` is not a key; did you mean `{key}`?"),
        None => format!("`{word}` is not a key; makecard --defaults prints them all"),
    }
}

/// What was read so far.
struct Reader {
    figures: Figures,
    mistakes: Vec<Mistake>,
}

impl Reader {
    /// One line; blank lines and those after `#` say nothing.
    fn take(&mut self, number: usize, line: &str) {
        let said = line.split('#').next().unwrap_or("").trim();
        if said.is_empty() {
            return;
        }
        let mistakes = match said.split_once('=') {
            Some((name, right)) => self.assign(number, name.trim(), right),
            None => vec![format!("`{said}` is not `key = figures`")],
        };
        self.mistakes.extend(mistakes.into_iter().map(|what| Mistake { line: number, what }));
    }

    /// Puts the figures of a key on the card; answers what is wrong with them.
    fn assign(&mut self, number: usize, name: &str, right: &str) -> Vec<String> {
        let Some(index) = KEYS.iter().position(|key| key.name == name) else {
            return vec![no_key(name)];
        };
        let mut mistakes = Vec::new();
        match self.figures.lines[index] {
            Some(first) => mistakes.push(format!("{name} is given twice, first on line {first}")),
            None => self.figures.lines[index] = Some(number),
        }
        match KEYS[index].read_all(right) {
            Ok(values) => KEYS[index].put(&mut self.figures.card, &values),
            Err(wrong) => mistakes.extend(wrong),
        }
        mistakes
    }

    /// The sum of some shares, if all were read well.
    fn hold_shares(&mut self, shares: Shares) {
        let lines: Vec<Option<usize>> =
            shares.iter().map(|&share| self.figures.lines[index_of(share)]).collect();
        if self.mistakes.iter().any(|mistake| lines.contains(&Some(mistake.line))) {
            return;
        }
        // Over the limit only if one of them is written, as the published shares fit.
        if let (Some(what), Some(line)) =
            (shares_mistake(&self.figures.card, shares), lines.into_iter().flatten().max())
        {
            self.mistakes.push(Mistake { line, what });
        }
    }
}

/// What a text says, or every mistake in it, in the order of the lines.
pub fn read(text: &str) -> Result<Figures, Vec<Mistake>> {
    let figures = Figures { card: Card::published(), lines: [None; KEYS.len()] };
    let mut reader = Reader { figures, mistakes: Vec::new() };
    for (index, line) in text.lines().enumerate() {
        reader.take(index + 1, line);
    }
    reader.hold_shares(WATER_SHARES);
    reader.hold_shares(PLACE_SHARES);
    reader.hold_shares(MEAT_SHARES);
    reader.mistakes.sort_by_key(|mistake| mistake.line);
    if reader.mistakes.is_empty() {
        Ok(reader.figures)
    } else {
        Err(reader.mistakes)
    }
}

/// The site fields that a text stands for.
pub fn site_fields(text: &str) -> Result<Fields, Vec<Mistake>> {
    read(text).map(|figures| figures.card.site)
}

/// The text of a file as an editor saves it: UTF-8, or UTF-16 with its byte order mark. The mark is left out.
pub fn text_of_bytes(bytes: &[u8]) -> Option<String> {
    let words = |word: fn([u8; 2]) -> u16| {
        let pairs = bytes[2..].chunks(2).map(|pair| Some(word(pair.try_into().ok()?)));
        String::from_utf16(&pairs.collect::<Option<Vec<u16>>>()?).ok()
    };
    match bytes {
        [0xEF, 0xBB, 0xBF, text @ ..] => String::from_utf8(text.to_vec()).ok(),
        [0xFF, 0xFE, ..] => words(u16::from_le_bytes),
        [0xFE, 0xFF, ..] => words(u16::from_be_bytes),
        _ => String::from_utf8(bytes.to_vec()).ok(),
    }
}
