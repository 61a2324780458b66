//! What a figure needs of the others before lead comes of it.

use super::keys::{index_of, key_of, Key, Place, KEYS};
use super::{Card, Figures};

/// A share of everything, %.
const WHOLE: u32 = 100;

/// A need; what it names is a place that has a key.
#[derive(Clone, Copy, Debug)]
pub(super) enum Need {
    /// A mode, by its site field, with this number.
    Mode(usize, u32),
    /// A site figure, by its first field, over 0 at some age.
    Over0(usize),
    /// A figure of a place or of the foods over 0, at some age.
    KeyOver0(Place),
    /// Shares that are less than the whole together, so that something is left for the rest.
    Rest(&'static [Place]),
    /// No foods block, whose diet takes the place of the site's.
    NoFoods,
}

use Need::{KeyOver0, Mode, NoFoods, Over0, Rest};

impl Need {
    /// Whether a card meets it.
    pub(super) fn is_met(&self, card: &Card) -> bool {
        match *self {
            Mode(at, number) => card.site[at] == number,
            Over0(from) => card_has(card, Place::Site(from)),
            KeyOver0(place) => card_has(card, place),
            Rest(shares) => shares.iter().map(|&share| key_of(share).of(card)[0]).sum::<u32>() < WHOLE,
            NoFoods => card.foods.is_none(),
        }
    }

    /// Whether another figure takes the place of one that lacks it, be that 0 or not.
    pub(super) fn is_of_another_figure(&self) -> bool {
        matches!(self, Mode(..) | NoFoods)
    }

    /// The key to set, if there is one.
    fn key(&self) -> Option<&'static Key> {
        match *self {
            Mode(from, _) | Over0(from) => Some(key_of(Place::Site(from))),
            KeyOver0(place) => Some(key_of(place)),
            Rest(shares) => shares.first().map(|&share| key_of(share)),
            NoFoods => None,
        }
    }

    /// What is due, in a few words.
    pub(super) fn short(&self) -> String {
        let name = self.key().map_or("", |key| key.name);
        match self {
            Mode(_, number) => format!("{name} = {number}"),
            Over0(_) | KeyOver0(_) => format!("{name} over 0"),
            Rest([_]) => format!("{name} under {WHOLE}"),
            Rest(_) => format!("shares under {WHOLE}"),
            NoFoods => "the foods left out".to_string(),
        }
    }

    /// The line of a key that meets it.
    fn line(&self, key: &Key) -> String {
        match self {
            Mode(..) | NoFoods => format!("`{}` ({})", self.short(), key.meaning),
            Over0(_) | KeyOver0(_) => {
                format!("`{} = N` with N over 0 {} ({})", key.name, key.unit, key.meaning)
            }
            Rest([_]) => format!("`{} = N` with N under {WHOLE} % ({})", key.name, key.meaning),
            Rest(shares) => {
                let how_many = if shares.len() == 2 { "two" } else { "five" };
                format!("`{} = N` so that the {how_many} shares are under {WHOLE} %", key.name)
            }
        }
    }

    /// The key to change on a card: of shares that leave no rest, one that is there.
    fn key_on(&self, card: &Card) -> Option<&'static Key> {
        let share_of =
            |shares: &[Place]| shares.iter().copied().find(|&share| card_has(card, share)).map(key_of);
        match *self {
            Rest(shares) => share_of(shares).or(self.key()),
            _ => self.key(),
        }
    }

    /// What to do to a text so that it is met.
    pub(super) fn advice(&self, figures: &Figures) -> String {
        let Some(key) = self.key_on(&figures.card) else {
            return format!("take out the foods ({})", foods_lines(figures));
        };
        match figures.lines[index_of(key.place)] {
            Some(line) => format!("change line {line} to {}", self.line(key)),
            None => format!("add the line {}", self.line(key)),
        }
    }
}

/// Whether a card has more than 0 at a place, at some age.
fn card_has(card: &Card, place: Place) -> bool {
    key_of(place).of(card).iter().any(|&value| value > 0)
}

/// The lines that have the foods, as `line 3` or `lines 3 to 9`.
fn foods_lines(figures: &Figures) -> String {
    let of_foods = KEYS.iter().zip(figures.lines).filter(|(key, _)| key.is_of_foods());
    let mut lines: Vec<usize> = of_foods.filter_map(|(_, line)| line).collect();
    lines.sort();
    match lines[..] {
        [] => unreachable!("a line makes the foods"),
        [only] => format!("line {only}"),
        [first, .., last] => format!("lines {first} to {last}"),
    }
}
