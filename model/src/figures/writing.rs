//! From the figures of a card to a text that stands for them.

use super::keys::{Key, KEYS};
use super::Card;
use crate::cards::published;

impl Key {
    /// Its figures: one if all ages have the same.
    fn figures(&self, card: &Card) -> String {
        let values = self.of(card);
        let same = values.iter().all(|value| *value == values[0]);
        let shown = values.iter().take(if same { 1 } else { self.count }).map(|value| self.shown(*value));
        shown.collect::<Vec<String>>().join(" ")
    }

    /// Its line, with limits, unit and meaning as a remark, and what it still needs to count.
    fn line(&self, card: &Card) -> String {
        let limits = format!("{} to {}", self.shown(self.least()), self.with_unit(self.most()));
        let needs = if self.counts(card) { String::new() } else { format!("; needs {}", self.needs(card)) };
        format!("{} = {}  # {limits}; {}{needs}\n", self.name, self.figures(card), self.meaning)
    }

    /// Whether its figure is 0.
    fn is_0(&self, card: &Card) -> bool {
        self.of(card).iter().all(|&value| value == 0)
    }

    /// Whether it has its published default and does not count.
    fn rests(&self, card: &Card) -> bool {
        !self.counts(card) && self.of(card) == self.of(&Card::published())
    }
}

/// What goes before the lines.
const HEAD: &str =
    "# A line behind `#` has its published default and is not used as the other figures stand.\n";
/// What goes before the lines of the places.
const PLACES_HEAD: &str = "\
# Places away from home, whose dust takes its share from the house's. A line without `#` makes site.lkb of edition 2; without
# one it is of edition 1. A place that has no line has no share.
";
/// What goes before the lines of foods.
const FOODS_HEAD: &str = "\
# The diet by foods, in place of `diet`. A line without `#` makes foods.lkb, and the others keep their defaults: the
# agency's foods, nothing home-grown, no fish, no game. leadline does not read foods.lkb (README.md).
";

/// The lines of some keys, those that rest behind a `#`.
fn lines_of<'a>(keys: impl Iterator<Item = &'a Key>, card: &Card, rests: impl Fn(&Key) -> bool) -> String {
    keys.map(|key| format!("{}{}", if rests(key) { "# " } else { "" }, key.line(card))).collect()
}

/// Whether a key is the first of some that all rest: one line at least has to make what a card has.
fn is_first_of<'a, Keys: Iterator<Item = &'a Key>>(
    key: &Key,
    keys: &impl Fn() -> Keys,
    rests: impl Fn(&Key) -> bool,
) -> bool {
    keys().all(rests) && keys().next().is_some_and(|first| first.name == key.name)
}

/// A text that stands for these figures, with every key. A default that does not count stands behind a `#`, so
/// that no warning speaks of it and whoever needs it can take the `#` away; so do the places
/// and the foods if the card has none, and a place's figure of 0.
pub fn text_of(card: &Card) -> String {
    let is_of_fields = |key: &&Key| !key.is_of_places() && !key.is_of_foods();
    let site = lines_of(KEYS.iter().filter(is_of_fields), card, |key| key.rests(card));
    let places_keys = || KEYS.iter().filter(|key| key.is_of_places());
    let places = lines_of(places_keys(), card, |key| {
        card.places.is_none() || (key.is_0(card) && !is_first_of(key, &places_keys, |key| key.is_0(card)))
    });
    let foods_keys = || KEYS.iter().filter(|key| key.is_of_foods());
    let with_foods = Card { foods: card.foods.or_else(|| Some(published::foods())), ..card.clone() };
    let foods = lines_of(foods_keys(), &with_foods, |key| {
        let rests = |key: &Key| key.rests(&with_foods);
        card.foods.is_none() || (rests(key) && !is_first_of(key, &foods_keys, rests))
    });
    format!("{HEAD}{site}{PLACES_HEAD}{places}{FOODS_HEAD}{foods}")
}
