//! The key that a misspelt word was meant to be.

use super::KEYS;

/// The first key that begins with the word, or the nearest of those that are no more edits away than half the
/// letters, if there is one.
pub fn nearest_key(word: &str) -> Option<&'static str> {
    let word = word.to_lowercase().replace(['-', ' '], "_");
    if let Some(key) = KEYS.iter().find(|key| key.name.starts_with(&format!("{word}_"))) {
        return Some(key.name);
    }
    let letters = |name: &str| word.chars().count().max(name.len());
    let measured = KEYS.iter().map(|key| (edits(&word, key.name), key.name));
    let (_, name) = measured.filter(|(edits, name)| *edits <= letters(name) / 2).min()?;
    Some(name)
}

/// How many letters must be put in, left out or changed to make one word of another.
fn edits(from: &str, to: &str) -> usize {
    let to: Vec<char> = to.chars().collect();
    // Edits that make each beginning of `to` of the letters so far.
    let mut row: Vec<usize> = (0..=to.len()).collect();
    for (done, letter) in from.chars().enumerate() {
        let mut next = vec![done + 1];
        for (place, wanted) in to.iter().enumerate() {
            let changed = row[place] + usize::from(letter != *wanted);
            next.push(changed.min(row[place + 1] + 1).min(next[place] + 1));
        }
        row = next;
    }
    row[to.len()]
}

#[cfg(test)]
mod tests {
    use super::{edits, nearest_key};

    #[test]
    fn edits_are_counted() {
        let cases = [("", "", 0), ("", "air", 3), ("sol", "soil", 1), ("diet", "dust", 2), ("water", "", 5)];
        for (from, to, due) in cases {
            assert_eq!(edits(from, to), due, "{from} {to}");
        }
    }

    #[test]
    fn the_nearest_key_is_found() {
        let cases = [
            ("sol", Some("soil")),
            ("Soil", Some("soil")),
            ("firstdraw", Some("first_draw")),
            ("first draw share", Some("first_draw_share")),
            ("dust-mode", Some("dust_mode")),
            ("hours", Some("hours_out")),
            ("absorbed_alternat", Some("absorbed_alternate")),
            ("dairy", Some("dairy_grams")),
            ("Canned Vegetable", Some("canned_vegetable_grams")),
            ("fishlead", Some("fish_lead")),
            ("vegetable_share", Some("home_vegetable_share")),
            ("", None),
            ("zzz", None),
            ("µ", None),
        ];
        for (word, due) in cases {
            assert_eq!(nearest_key(word), due, "{word}");
        }
    }
}
