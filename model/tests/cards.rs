//! The realistic book, the published site and the text figures.

use jurengate_model::book::{column, read_book};
use jurengate_model::cards::{curves, published};
use jurengate_model::engine::run;
use jurengate_model::figures::{read, site_fields, text_of, Card, Figures, Mistake, KEYS};
use jurengate_model::foods::{food, local};
use jurengate_model::random::{self, Generator};
use jurengate_model::site::{place, read_site, Site, AGES};
use jurengate_model::state::MONTHS;
use jurengate_model::uptake::{intakes, Intakes};

#[test]
fn the_realistic_book_is_accepted_and_grows() {
    let rows = curves::rows();
    assert!(read_book(&curves::book()).is_ok());
    for pair in rows.windows(2) {
        for growing in [column::VB, column::VP, column::BODY, column::KIDNEY, column::LIVER, column::OTHER] {
            assert!(pair[0][growing] <= pair[1][growing]);
        }
    }
}

#[test]
fn curve_figures_that_can_be_computed_by_hand() {
    let rows = curves::rows();
    assert_eq!((rows[0][column::VB], rows[0][column::VP], rows[0][column::BODY]), (3_714, 2_027, 3_646));
    // 12.3 kg is what the agency takes a 24-month-old to weigh; the curve gives 12.339.
    assert_eq!(rows[24][column::BODY], 12_339);
    for row in &rows {
        // 1/6 day over 0.1 day, and over 0.1 × (100 − 0.55/1.28) days.
        assert_eq!((row[column::OUT], row[column::BACK]), (166_666_667, 1_673_859));
        let (trabecular, cortical) = (u64::from(row[column::OUT + 4]), u64::from(row[column::OUT + 5]));
        assert!(cortical.abs_diff(4 * trabecular) <= 4);
        assert_eq!(row[column::BACK + 4], row[column::BACK + 5]);
    }
}

#[test]
fn breathing_follows_its_equation_at_mid_year() {
    for (age, litres) in published::BREATHING.iter().enumerate() {
        let cubic_metres = 4.233 * (age as f64 + 0.5).powf(0.396);
        assert_eq!(f64::from(*litres), (1000.0 * cubic_metres).round());
    }
}

/// Whether a line stands in the document word for word.
fn published_line(line: &str) -> bool {
    include_str!("../../docs/PUBLISHED.md").lines().any(|stored| stored == line)
}

/// The default intakes that document 000 prints, µg/day by age: each within `margin` of the card's, and in our document.
fn check_intakes(
    row: &str,
    agreement: &str,
    margin: f64,
    printed: [&str; AGES],
    taken: impl Fn(&Intakes) -> f64,
) {
    let site = Site::of_fields(&read_site(&published::site()).unwrap());
    for (age, printed) in printed.iter().enumerate() {
        let figure: f64 = printed.parse().unwrap();
        assert!((taken(&intakes(&site, age).unwrap()) / 1e6 - figure).abs() <= margin, "{row} at age {age}");
    }
    assert!(published_line(&format!("| {row} | {} | {agreement} |", printed.join(" | "))), "{row}");
}

#[test]
fn published_intakes_come_out() {
    let last_digit = "to half of the last printed digit";
    let water = ["0.36", "0.39", "0.46", "0.49", "0.51", "0.54", "0.57"];
    check_intakes("water", last_digit, 0.0051, water, |taken| taken.eaten[1] as f64);
    let soil = ["7.74", "8.46", "6.03", "5.67", "6.03", "4.68", "4.95"];
    check_intakes("soil", last_digit, 0.0051, soil, |taken| taken.eaten[3] as f64);
    let dust = ["7.10", "7.76", "5.53", "5.20", "5.53", "4.29", "4.54"];
    check_intakes("dust, at 150 µg/g", last_digit, 0.0051, dust, |taken| taken.eaten[2] as f64);
    let air = ["0.034", "0.057", "0.076", "0.093", "0.102", "0.111", "0.119"];
    check_intakes("air, absorbed", "within 0.0011", 0.0011, air, |taken| 0.32 * taken.air as f64);
}

/// The lead of all foods as E-4 has it, before the shares and halves of E-5: the default diet, to what whole grams lose.
#[test]
fn published_foods_make_the_published_diet() {
    let foods = published::foods();
    for (age, diet) in published::DIET.iter().enumerate() {
        let grams = foods.grams[age].iter().zip(foods.leads);
        let lead: u32 = grams.map(|(&grams, lead)| u32::from(grams) * lead).sum();
        assert!(lead.abs_diff(*diet) <= 12_000, "age {age}: {lead}");
    }
}

/// The 84 figures of the default card.
fn default_blood() -> [u32; MONTHS] {
    let mut blood = [0; MONTHS];
    assert_eq!(run(&published::site(), &curves::book(), &mut blood).number, 0);
    blood
}

/// A mean of figures in µg/dL, rounded half up to two decimals.
fn mean(figures: &[u32]) -> String {
    let (sum, count) = (figures.iter().sum::<u32>(), figures.len() as u32);
    let hundredths = (sum + 5 * count) / (10 * count);
    format!("{}.{:02}", hundredths / 100, hundredths % 100)
}

/// A figure in µg/dL, unrounded.
fn figure(blood: u32) -> String {
    format!("{}.{:03}", blood / 1000, blood % 1000)
}

/// The document's blood table is that of the unrounded figures.
#[test]
fn the_published_blood_table_is_the_default_card_s() {
    let blood = default_blood();
    let years: Vec<String> = blood.chunks_exact(12).map(mean).collect();
    let highest = *blood.iter().max().unwrap();
    let month = 1 + blood.iter().position(|&each| each == highest).unwrap();
    let rows = [
        format!("| mean by year of age, 0 to 6 | {} |", years.join(", ")),
        format!("| mean over months 12 to 72 | {} |", mean(&blood[11..72])),
        format!("| highest | {}, in month {month} |", figure(highest)),
        format!("| month 84 | {} |", figure(blood[83])),
    ];
    for row in rows {
        assert!(published_line(&row), "{row}");
    }
}

/// A guard against a wrong unit, not a published figure: documents 000 and 003 print no
/// blood lead for their default site. 003 works its example with a mean of 3 µg/dL.
#[test]
fn the_default_child_has_a_common_child_s_blood_lead() {
    let mean = default_blood()[11..72].iter().sum::<u32>() / 61;
    assert!((2_000..=2_700).contains(&mean), "mean {mean}");
}

#[test]
fn an_empty_text_is_the_published_site() {
    assert_eq!(site_fields(""), Ok(published::fields()));
    assert_eq!(site_fields("# nothing\n\n   \n"), Ok(published::fields()));
    assert_eq!(read("").map(|figures| figures.card), Ok(Card::published()));
}

#[test]
fn the_keys_cover_the_figures_once() {
    let text = text_of(&Card::published());
    for key in &KEYS {
        let lines =
            text.lines().filter(|line| line.trim_start_matches("# ").split(' ').next() == Some(key.name));
        assert_eq!(lines.count(), 1, "{}", key.name);
    }
    let mut generator = Generator::new(61);
    for _ in 0..200 {
        let range = random::range(&mut generator);
        let random::Yard { fields: site, places } = random::yard(&mut generator, range);
        for foods in [None, Some(random::foods(&mut generator, range))] {
            let card = Card { site, places, foods };
            assert_eq!(read(&text_of(&card)).map(|figures| figures.card), Ok(card));
        }
    }
}

/// Even if none of the foods counts and each has its default.
#[test]
fn a_text_of_foods_makes_them() {
    let mut card = Card { foods: Some(published::foods()), ..Card::published() };
    card.site[place::ABSORBED] = 0;
    let text = text_of(&card);
    assert_eq!(read(&text).map(|figures| figures.card), Ok(card));
    assert_eq!(text.lines().filter(|line| line.contains("_grams = ") && !line.starts_with('#')).count(), 1);
}

#[test]
fn foods_that_a_text_leaves_out_are_the_published_ones() {
    let read = |text: &str| -> Figures { read(text).expect("figures") };
    let figures = read("meat_grams = 1 2 3 4 5 6 10000\nmeat_lead = 0.000001\ngame_share = 100 # all of it");
    let mut due = published::foods();
    for (at_age, grams) in due.grams.iter_mut().zip([1, 2, 3, 4, 5, 6, 10_000]) {
        at_age[food::MEAT] = grams;
    }
    due.leads[food::MEAT] = 1;
    due.local_shares[local::GAME] = 100;
    assert_eq!(figures.card, Card { foods: Some(due), ..Card::published() });
    due = published::foods();
    due.local_leads = [500_000, 250_000, 125_000, 1_000_000];
    let text = "home_vegetable_lead = 0.5\nhome_fruit_lead = 0.25\nfish_lead = 0.125\ngame_lead = 1";
    assert_eq!(read(text).card.foods, Some(due));
}

#[test]
fn figures_are_read_exactly() {
    let fields = site_fields("soil = 1 2.5 3.125 0 50000 007 49999.999\nair=0.000001 # clean\nmother = .5");
    assert!(fields.is_err(), "a figure begins with a digit");
    let fields =
        site_fields("soil = 1 2.5 3.125 0 50000 007 49999.999\nair=0.000001 # clean\nmother = 0.500")
            .unwrap();
    assert_eq!(fields[place::SOIL..place::SOIL + 7], [1_000, 2_500, 3_125, 0, 50_000_000, 7_000, 49_999_999]);
    assert_eq!(fields[place::AIR..place::AIR + 7], [1; 7]);
    assert_eq!(fields[place::MOTHER], 500);
}

#[test]
fn mistakes_are_told_with_their_line() {
    let cases = [
        ("soil 200", "line 1: `soil 200` is not `key = figures`"),
        ("\nsol = 200", "line 2: `sol` is not a key; did you mean `soil`?"),
        ("zzz = 200", "line 1: `zzz` is not a key; makecard --defaults prints them all"),
        ("soil = 1 2", "line 1: soil takes one figure, or seven for ages 0 to 6, not 2"),
        ("mother = 1 2", "line 1: mother takes one figure, not 2"),
        ("mother =", "line 1: mother takes one figure, not 0"),
        ("soil = -1", "line 1: soil: `-1` is not a figure such as 200 or 0.9"),
        ("soil = 1e3", "line 1: soil: `1e3` is not a figure such as 200 or 0.9"),
        ("soil = 1.2.3", "line 1: soil: `1.2.3` is not a figure such as 200 or 0.9"),
        ("soil = 1.", "line 1: soil: `1.` is not a figure such as 200 or 0.9"),
        ("soil = 0.0001", "line 1: soil: `0.0001` has more than 3 decimals"),
        ("eaten = 1.5", "line 1: eaten: `1.5` must be a whole number"),
        ("soil = 50000.001", "line 1: soil: 50000.001 is over the limit of 50000 µg/g"),
        ("saturation = 0.5", "line 1: saturation: 0.5 is below 1 µg/day"),
        ("soil = 99999999999999999999999", "line 1: soil: `99999999999999999999999` is too long"),
        ("soil = 9999999999", "line 1: soil: 9999999999 is over the limit of 50000 µg/g"),
        ("dust_mode = 2", "line 1: dust_mode: 2 is over the limit of 1"),
        ("soil = 1\nsoil = 2", "line 2: soil is given twice, first on line 1"),
        (
            "\nfirst_draw_share = 90",
            "line 2: first_draw_share and fountain_share are 105 % together, over 100 %",
        ),
        ("meat = 35", "line 1: `meat` is not a key; did you mean `meat_grams`?"),
        ("fish_lid = 0.1", "line 1: `fish_lid` is not a key; did you mean `fish_lead`?"),
        ("meat_grams = 35 64", "line 1: meat_grams takes one figure, or seven for ages 0 to 6, not 2"),
        ("meat_lead = 0.1 0.2", "line 1: meat_lead takes one figure, not 2"),
        ("meat_grams = 34.8", "line 1: meat_grams: `34.8` must be a whole number"),
        ("candy_grams = 10001", "line 1: candy_grams: 10001 is over the limit of 10000 g/day"),
        ("candy_grams = 65537", "line 1: candy_grams: 65537 is over the limit of 10000 g/day"),
        ("meat_lead = 1.000001", "line 1: meat_lead: 1.000001 is over the limit of 1 µg/g"),
        ("meat_lead = 0.0000001", "line 1: meat_lead: `0.0000001` has more than 6 decimals"),
        ("home_fruit_share = 101", "line 1: home_fruit_share: 101 is over the limit of 100 %"),
        (
            "fish_share = 60\ngame_share = 41",
            "line 2: fish_share and game_share are 101 % together, over 100 %",
        ),
    ];
    for (text, told) in cases {
        let mistakes: Vec<String> = site_fields(text).unwrap_err().iter().map(Mistake::to_string).collect();
        assert_eq!(mistakes, [told]);
    }
}

#[test]
fn every_mistake_is_told_in_the_order_of_the_lines() {
    let text =
        "first_draw_share = 90\nsol = 3\nsoil = 1 -2 x 4 5 6 7\nsoil = 99999\n\neaten = 1 2.5\nair 3\n";
    let due = [
        "line 1: first_draw_share and fountain_share are 105 % together, over 100 %",
        "line 2: `sol` is not a key; did you mean `soil`?",
        "line 3: soil: `-2` is not a figure such as 200 or 0.9",
        "line 3: soil: `x` is not a figure such as 200 or 0.9",
        "line 4: soil is given twice, first on line 3",
        "line 4: soil: 99999 is over the limit of 50000 µg/g",
        "line 6: eaten takes one figure, or seven for ages 0 to 6, not 2",
        "line 6: eaten: `2.5` must be a whole number",
        "line 7: `air 3` is not `key = figures`",
    ];
    let mistakes: Vec<String> = site_fields(text).unwrap_err().iter().map(Mistake::to_string).collect();
    assert_eq!(mistakes, due);
}

/// A share that could not be read keeps its default, which must not be added up.
#[test]
fn shares_are_added_up_only_where_both_are_read() {
    let mistakes = site_fields("first_draw_share = 90\nfountain_share = x\n").unwrap_err();
    assert_eq!(mistakes.len(), 1, "{mistakes:?}");
}
