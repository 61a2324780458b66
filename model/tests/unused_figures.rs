//! Which figures count, held to the model's own uptake: a figure counts just when the day's uptake moves with it.

use jurengate_model::book::{read_book, Book};
use jurengate_model::cards::{curves, published};
use jurengate_model::figures::{Card, Key, Place, KEYS};
use jurengate_model::foods::Foods;
use jurengate_model::site::{self, place, Places, Site, SiteFile, AGES};
use jurengate_model::uptake::day_uptake;

/// The published site with every medium in it, each figure another.
fn full_site() -> Card {
    let mut card = Card::published();
    card.site[place::ALTERNATE..place::ALTERNATE + AGES].fill(10_000_000);
    card.site[place::ABSORBED + 4] = 40;
    (card.site[place::FLUSHED], card.site[place::FIRST_DRAW], card.site[place::FOUNTAIN]) =
        (5_000, 20_000, 10_000);
    card
}

/// The same with every place in it, each with another dust.
fn full_places() -> Card {
    let (shares, dust) = ([10, 20, 15, 5, 10], [900_000, 400_000, 1_500_000, 250_000, 700_000]);
    let places = Places(std::array::from_fn(|at| site::Place { share: shares[at], dust: dust[at] }));
    Card { places: Some(places), ..full_site() }
}

/// The same with every food in it, each with another lead.
fn full_foods() -> Card {
    let local = Foods {
        local_shares: [30, 20, 40, 25],
        local_leads: [90_000, 70_000, 50_000, 30_000],
        ..published::foods()
    };
    Card { foods: Some(local), ..full_site() }
}

/// Changes to a site that can keep a figure from counting: where, how many fields, to what.
const CHANGES: [(usize, usize, u32); 17] = [
    (place::MOTHER, 1, 600),
    (place::BREATHING, AGES, 0),
    (place::AIR_ABSORBED, AGES, 0),
    (place::WATER_AMOUNT, AGES, 0),
    (place::EATEN, AGES, 0),
    (place::ALTERNATE, AGES, 0),
    (place::WEIGHT_SOIL, 1, 0),
    (place::WEIGHT_SOIL, 1, 100),
    (place::CONTRIBUTION, 1, 0),
    (place::AIR_TO_DUST, 1, 0),
    (place::FIRST_DRAW_SHARE, 1, 0),
    (place::FIRST_DRAW_SHARE, 1, 85),
    (place::ABSORBED, 1, 0),
    (place::ABSORBED + 1, 1, 0),
    (place::ABSORBED + 2, 1, 0),
    (place::ABSORBED + 3, 1, 0),
    (place::ABSORBED + 4, 1, 0),
];

fn changed(card: &Card, (from, count, value): (usize, usize, u32)) -> Card {
    let mut card = card.clone();
    card.site[from..from + count].fill(value);
    card
}

/// The day's uptake in the first month of every age.
fn uptakes(card: &Card, book: &Book) -> Vec<u128> {
    let site = Site::of_file(&SiteFile { fields: card.site, places: card.places.unwrap_or_default() });
    let site = card.foods.map_or(site, |foods| site.with_foods(&foods));
    (0..AGES).map(|age| day_uptake(&site, book, 12 * age + 1).expect("no intake over its limit")).collect()
}

/// Whether another figure of the key, 40 or 70 % of the full card's, gives another uptake.
fn moves(key: &Key, card: &Card, full: &Card, book: &Book) -> bool {
    let due = uptakes(card, book);
    [40, 70].into_iter().any(|percent| {
        let figures = key.of(full).into_iter().map(|figure| (u64::from(figure) * percent / 100) as u32);
        let mut other = card.clone();
        key.put(&mut other, &figures.collect::<Vec<u32>>());
        uptakes(&other, book) != due
    })
}

/// Whether a key's figures, of fields or places, can move the uptake by their size.
fn is_of_fields(key: &Key) -> bool {
    let not_measured = [place::DUST_MODE, place::WATER_MODE, place::MOTHER].map(Place::Site);
    !key.is_of_foods() && !not_measured.contains(&key.place)
}

#[test]
fn a_figure_counts_just_when_the_uptake_moves_with_it() {
    let book = read_book(&curves::book()).expect("the realistic book");
    let is_measured = |key: &&Key| is_of_fields(key) && !key.is_of_places();
    let mut resting = 0;
    for modes in 0..4 {
        let mut full = full_site();
        (full.site[place::DUST_MODE], full.site[place::WATER_MODE]) = (modes % 2, modes / 2);
        for first in CHANGES {
            for second in CHANGES {
                let card = changed(&changed(&full, first), second);
                // With neither, dust has no lead at all, which is no reason to warn of its shares.
                if card.site[place::CONTRIBUTION] + card.site[place::AIR_TO_DUST] == 0 {
                    continue;
                }
                for key in KEYS.iter().filter(is_measured) {
                    let counts = key.counts(&card);
                    assert_eq!(
                        counts,
                        moves(key, &card, &full_site(), &book),
                        "{} {modes} {first:?} {second:?}",
                        key.name
                    );
                    resting += usize::from(!counts);
                }
            }
        }
    }
    assert!(resting > 4 * CHANGES.len(), "{resting}");
}

/// With places: every two of their figures at 0 or one of the changes above, and the places with the whole share.
#[test]
fn a_figure_counts_beside_places_just_when_the_uptake_moves_with_it() {
    let book = read_book(&curves::book()).expect("the realistic book");
    let places_keys = || KEYS.iter().filter(|key| key.is_of_places());
    type Change<'a> = Box<dyn Fn(&mut Card) + 'a>;
    let none = places_keys().map(|key| -> Change { Box::new(move |card| key.put(card, &[0])) });
    let whole: Change = Box::new(|card| key_of(Place::AwayShare(site::away::WORK)).put(card, &[50]));
    let of_fields = CHANGES.map(|change| -> Change { Box::new(move |card| *card = changed(card, change)) });
    let changes: Vec<Change> = none.chain([whole]).chain(of_fields).collect();
    let (mut resting, mut house_rests) = (0, 0);
    for mode in 0..2 {
        let mut full = full_places();
        full.site[place::DUST_MODE] = mode;
        for (index, first) in changes.iter().enumerate() {
            for (other, second) in changes.iter().enumerate() {
                let mut card = full.clone();
                first(&mut card);
                second(&mut card);
                if card.site[place::CONTRIBUTION] + card.site[place::AIR_TO_DUST] == 0 {
                    continue;
                }
                for key in KEYS.iter().filter(|key| is_of_fields(key)) {
                    let counts = key.counts(&card);
                    let due = moves(key, &card, &full_places(), &book);
                    assert_eq!(counts, due, "{} {mode} {index} {other}", key.name);
                    resting += usize::from(!counts);
                    house_rests += usize::from(!counts && key.needs(&card).contains("shares under 100"));
                }
            }
        }
    }
    assert!(resting > 2 * changes.len() && house_rests > 100, "{resting} {house_rests}");
}

/// The key of a place on a card.
fn key_of(place: Place) -> &'static Key {
    KEYS.iter().find(|key| key.place == place).expect("a key")
}

/// With foods: every two figures of the foods, or the diet's absorption, at 0, and each share at the whole.
#[test]
fn a_food_counts_just_when_the_uptake_moves_with_it() {
    let book = read_book(&curves::book()).expect("the realistic book");
    let full = full_foods();
    let absorbed = KEYS.iter().filter(|key| key.place == Place::Site(place::ABSORBED));
    let touched: Vec<&Key> = KEYS.iter().filter(|key| key.is_of_foods()).chain(absorbed).collect();
    let is_share = |key: &Key| matches!(key.place, Place::Share(_));
    let none = touched.iter().map(|&key| (key, 0));
    let whole = touched.iter().filter(|key| is_share(key)).map(|&key| (key, 100));
    let changes: Vec<(&Key, u32)> = none.chain(whole).collect();
    let mut resting = 0;
    for (index, first) in changes.iter().enumerate() {
        for second in &changes[index..] {
            let mut card = full.clone();
            for (key, value) in [first, second] {
                let values = vec![*value; key.of(&card).len()];
                key.put(&mut card, &values);
            }
            // Of fish and game one may be all the meat, and then the other is none, and cannot rise.
            let fits = |card: &Card| card.foods.expect("foods").shares_fit();
            let can_rise = |key: &&Key| {
                let mut raised = card.clone();
                key.put(&mut raised, &key.of(&full));
                fits(&card) && fits(&raised)
            };
            let measured =
                KEYS.iter().filter(|key| key.is_of_foods() || key.place == Place::Site(place::DIET));
            for key in measured.filter(can_rise) {
                let counts = key.counts(&card);
                assert_eq!(
                    counts,
                    moves(key, &card, &full, &book),
                    "{} {} {}",
                    key.name,
                    first.0.name,
                    second.0.name
                );
                resting += usize::from(!counts);
            }
        }
    }
    assert!(resting > changes.len() * changes.len(), "{resting}");
}
