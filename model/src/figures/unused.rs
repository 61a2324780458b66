//! Figures that no lead comes of as the others stand: another mode, a share of nought or a foods block keeps them out.

use super::keys::{Key, KEYS};
use super::needs::Need;
use super::ways::ways;
use super::{Card, Figures};
use std::fmt;

/// What a key still needs, by its first way; nothing if it counts.
fn unmet(key: &Key, card: &Card) -> Vec<Need> {
    let missing = |way: Vec<Need>| way.into_iter().filter(|need| !need.is_met(card)).collect();
    let by_way: Vec<Vec<Need>> = ways(key).into_iter().map(missing).collect();
    if by_way.iter().any(Vec::is_empty) {
        return Vec::new();
    }
    by_way.into_iter().next().unwrap_or_default()
}

impl Key {
    /// Whether its figures, if not 0, change what the child takes up.
    pub fn counts(&self, card: &Card) -> bool {
        unmet(self, card).is_empty()
    }

    /// What it needs to count, in a few words.
    pub fn needs(&self, card: &Card) -> String {
        unmet(self, card).iter().map(Need::short).collect::<Vec<String>>().join(", ")
    }
}

/// A written figure that does not count.
#[derive(Clone, Debug, PartialEq, Eq)]
pub struct Unused {
    /// Its line, from 1.
    pub line: usize,
    /// Its key.
    pub name: &'static str,
    /// What to do so that it counts.
    pub advice: String,
}

impl fmt::Display for Unused {
    fn fmt(&self, f: &mut fmt::Formatter) -> fmt::Result {
        write!(f, "line {}: {} is not used. For it to count, {}", self.line, self.name, self.advice)
    }
}

/// The written figures that do not count, in the order of the lines.
pub fn unused(figures: &Figures) -> Vec<Unused> {
    let mut told = Vec::new();
    for (key, line) in KEYS.iter().zip(figures.lines) {
        let Some(line) = line else { continue };
        let mut needs = unmet(key, &figures.card);
        // A figure of 0 says what a share of 0 says; only a mode or a foods block puts another in its place.
        if key.of(&figures.card).iter().all(|&value| value == 0) {
            needs.retain(Need::is_of_another_figure);
        }
        if !needs.is_empty() {
            let advice: Vec<String> = needs.iter().map(|need| need.advice(figures)).collect();
            told.push(Unused { line, name: key.name, advice: advice.join("; ") });
        }
    }
    told.sort_by_key(|each| each.line);
    told
}
