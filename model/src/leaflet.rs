//! The leaflet in the box (request 3 of document 02): least and most of each figure of a site file, and two rules, as
//! the engine's program `leaflet` prints them from the list that its site check walks. `makecard` takes the limits of
//! a site from here alone; the model's readers have a list of their own, and the tests hold the leaflet to it.

use crate::site::AGES;
use std::sync::LazyLock;

/// The leaflet as it is stored: the gate fails if the program prints anything else.
pub const LEAFLET: &str = include_str!("../../crates/leaflet/stdout");

/// Lines of figures.
const LINES: usize = 34;
/// What stands over their columns.
const HEADING: [&str; 5] = ["name", "ages", "unit", "least", "most"];
/// What parts two columns, at least.
const GAP: &str = "  ";
/// The words before the number of the rule on the two water shares.
const SHARES_RULE: &str = "first_draw_share and fountain_share together: at most ";
/// The words before the number of the rule on saturation.
const SATURATION_RULE: &str = "saturation: at least ";

/// A line of the leaflet: a figure of a site file with its limits, in the file's unit.
#[derive(Clone, Debug, PartialEq, Eq)]
pub struct Line {
    /// The figure's name.
    pub name: String,
    /// Fields that it has: 7 for one per age, else 1.
    pub count: usize,
    /// Its unit in ASCII, `-` for none.
    pub unit: String,
    /// The lowest value that its fields may hold.
    pub least: u32,
    /// The highest value that its fields may hold.
    pub most: u32,
}

/// What the leaflet says.
#[derive(Clone, Debug, PartialEq, Eq)]
pub struct Leaflet {
    /// The figures, in the order of the site file.
    pub lines: Vec<Line>,
    /// The two water shares together, hundredths.
    pub shares_most: u32,
    /// Lowest saturation, pg/day.
    pub saturation_least: u32,
}

impl Leaflet {
    /// The line of a figure.
    pub fn line(&self, name: &str) -> &Line {
        let line = self.lines.iter().find(|line| line.name == name);
        line.unwrap_or_else(|| panic!("the leaflet has no figure `{name}`"))
    }
}

/// The leaflet, read once.
pub fn leaflet() -> &'static Leaflet {
    static READ: LazyLock<Leaflet> = LazyLock::new(|| {
        read(LEAFLET).unwrap_or_else(|why| panic!("crates/leaflet/stdout is not a leaflet: {why}"))
    });
    &READ
}

/// What a text says, or why it is not a leaflet.
fn read(text: &str) -> Result<Leaflet, String> {
    let lines: Vec<&str> = text.lines().collect();
    let [heading, figures @ .., "", shares, saturation] = &lines[..] else {
        return Err("it does not end with a blank line and two rules".to_string());
    };
    if columns(heading) != HEADING {
        return Err(format!("`{heading}` is not its heading"));
    }
    if figures.len() != LINES {
        return Err(format!("it has {} figures and not {LINES}", figures.len()));
    }
    let read_line = |line: &&str| figure(line).ok_or_else(|| format!("`{line}` is not a figure's line"));
    Ok(Leaflet {
        lines: figures.iter().map(read_line).collect::<Result<_, String>>()?,
        shares_most: rule(SHARES_RULE, shares)?,
        saturation_least: rule(SATURATION_RULE, saturation)?,
    })
}

/// The columns of a line.
fn columns(line: &str) -> Vec<&str> {
    line.split(GAP).map(str::trim).filter(|column| !column.is_empty()).collect()
}

/// What a figure's line says, if it is one.
fn figure(line: &str) -> Option<Line> {
    let [name, ages, unit, least, most] = columns(line)[..] else { return None };
    let count = match ages {
        "0-6" => AGES,
        "all" => 1,
        _ => return None,
    };
    let (least, most) = (number(least)?, number(most)?);
    Some(Line { name: name.to_string(), count, unit: unit.to_string(), least, most })
}

/// The number of a rule that has these words before it.
fn rule(words: &str, line: &str) -> Result<u32, String> {
    let told = || format!("`{line}` is not `{words}` and a number");
    line.strip_prefix(words).and_then(number).ok_or_else(told)
}

/// A number, if its thousands are parted by commas.
fn number(text: &str) -> Option<u32> {
    let number = text.replace(',', "").parse().ok()?;
    (written(number) == text).then_some(number)
}

/// A number with its thousands parted by commas.
fn written(number: u32) -> String {
    let digits = number.to_string();
    let thousands = digits.as_bytes().rchunks(3).rev().map(String::from_utf8_lossy);
    thousands.collect::<Vec<_>>().join(",")
}

#[cfg(test)]
mod tests {
    use super::{read, LEAFLET};

    /// Each one change from the leaflet.
    #[test]
    fn a_text_that_is_not_a_leaflet_is_told_of() {
        assert_eq!(read(LEAFLET).map(|leaflet| leaflet.lines.len()), Ok(34));
        let cases = [
            ("least      most", "most       least", "is not its heading"),
            ("\n\n", "\n", "it does not end with a blank line and two rules"),
            ("\n\n", "\n\n\n", "it has 35 figures and not 34"),
            ("0-6   pg/m3", "0-7   pg/m3", "`air "),
            ("pg/m3", "", "`air "),
            ("0          100,000,000", "0 100,000,000", "`air "),
            ("0          24", "0          24  25", "`hours_out "),
            ("100,000\n", "100000\n", "`breathing "),
            ("100,000\n", "10,0000\n", "`breathing "),
            ("1,000,000,000", "10,000,000,000", "`diet "),
            ("together: at most", "together: over", "fountain_share together: over 100` is not"),
            ("at least 1,000,000", "at least -1", "`saturation: at least -1` is not"),
        ];
        for (from, to, why) in cases {
            let told = read(&LEAFLET.replacen(from, to, 1)).expect_err(to);
            assert!(told.contains(why), "{told}");
        }
    }
}
