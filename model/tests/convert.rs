//! The converter (request 7): its refusals in order, its bytes, and that nothing else tells the two editions apart.

use jurengate_model::block::{check_of, word16, word32, BLOCK_BYTES, BODY_BYTES, EDITION_AT, NUMBER_AT};
use jurengate_model::card::card_row;
use jurengate_model::cards::{published, put_field, seal, site_file, site_file_2};
use jurengate_model::convert::{to_edition_1, to_edition_2, Converter};
use jurengate_model::engine::{birth_foods, month_foods, run_foods};
use jurengate_model::fast;
use jurengate_model::group::{card_group, GROUP_ANSWERS};
use jurengate_model::random::{self, Generator, Range};
use jurengate_model::refusal::{number_of, Refusal};
use jurengate_model::site::{place, read_places, read_site, Place, Places, PLACES, PLACE_FIGURES};
use jurengate_model::state::MONTHS;

/// What a target holds beforehand.
const BEFORE: u8 = 0x5E;

/// The target of an accepted conversion, or the number of a refused one, which keeps the target.
fn converted(converter: Converter, site: &[u8]) -> Result<Vec<u8>, u32> {
    let mut target = vec![BEFORE; BLOCK_BYTES];
    match converter(site, &mut target) {
        Ok(()) => Ok(target),
        Err(refusal) => {
            assert!(target.iter().all(|&byte| byte == BEFORE), "{refusal:?}");
            Err(refusal.number())
        }
    }
}

fn up(site: &[u8]) -> Result<Vec<u8>, u32> {
    converted(to_edition_2, site)
}

fn down(site: &[u8]) -> Result<Vec<u8>, u32> {
    converted(to_edition_1, site)
}

/// The published site in edition 2, with this share of the last place and figures at all.
fn second_edition(share: u32) -> Vec<u8> {
    let mut places = Places([Place { share: 0, dust: 7 }; PLACES]);
    places.0[PLACES - 1].share = share;
    site_file_2(&published::fields(), &places)
}

/// A site file with the figures of its places, whatever they are.
fn with_figures(site: &[u8], figures: [u32; PLACE_FIGURES]) -> Vec<u8> {
    let mut site = site.to_vec();
    figures.iter().enumerate().for_each(|(at, figure)| put_field(&mut site, 94 + at, *figure));
    seal(&mut site);
    site
}

#[test]
fn the_published_site_goes_up_and_down() {
    let site = published::site();
    let two = up(&site).expect("a site file of edition 1");
    assert_eq!((word16(&two, NUMBER_AT), word16(&two, EDITION_AT)), (0, 2));
    assert_eq!(two[4..BODY_BYTES], site[4..BODY_BYTES]);
    assert_eq!(word32(&two, BODY_BYTES), word32(&site, BODY_BYTES) + 2);
    assert_eq!(two, site_file_2(&published::fields(), &Places::default()));
    assert_eq!(down(&two).expect("a site file of edition 2"), site);
}

/// The figures of places without a share are dropped in silence.
#[test]
fn figures_are_dropped_on_the_way_down() {
    let site = second_edition(0);
    assert_ne!(read_places(&site), Ok(Places::default()));
    assert_eq!(down(&site), Ok(published::site()));
    let most = Places([Place { share: 0, dust: 50_000_000 }; PLACES]);
    assert_eq!(down(&site_file_2(&published::fields(), &most)), Ok(published::site()));
}

/// What can be wrong on the way down, in the order of refusals, behind the lengths.
const DOWN: [u32; 7] = [3, 4, 5, 6, 7, 13, 14];
/// The same on the way up.
const UP: [u32; 5] = [3, 4, 5, 6, 7];

/// A sound site file for a way, with everything of a list wrong from a place on.
fn wrong_from(list: &[u32], first: usize) -> Vec<u8> {
    let is_wrong = |number: u32| list[first..].contains(&number);
    let is_down = list.contains(&14);
    let mut site = if is_down { second_edition(0) } else { published::site() };
    if is_wrong(14) {
        site = second_edition(1);
    }
    if is_wrong(13) {
        site = with_figures(&site, [60, 0, 60, 0, 0, 0, 0, 0, 0, 0]);
    }
    if is_wrong(7) {
        put_field(&mut site, place::MOTHER, 100_001);
    }
    if is_wrong(6) {
        site[if is_down { 420 } else { 380 }] = 1;
    }
    if is_wrong(5) {
        site[NUMBER_AT + 1] = 1;
    }
    if is_wrong(4) {
        site[EDITION_AT] = if is_down { 1 } else { 2 };
    }
    seal(&mut site);
    if is_wrong(3) {
        site[BODY_BYTES + 3] ^= 0x80;
    }
    site
}

#[test]
fn the_first_of_several_refusals_is_answered() {
    for (list, converter) in [(&DOWN[..], down as fn(&[u8]) -> _), (&UP, up)] {
        for (first, &number) in list.iter().enumerate() {
            assert_eq!(converter(&wrong_from(list, first)), Err(number), "{list:?} from {first}");
        }
        assert!(converter(&wrong_from(list, list.len())).is_ok());
    }
}

/// One thing wrong: 14 alone, 13 by shares of 100 and 1, 7 by a share of 101 or a figure, in a place of no share too.
#[test]
fn each_refusal_of_the_places() {
    let site = published::site();
    let two = second_edition(0);
    for at in 0..PLACES {
        let figures = |share: u32, dust: u32| {
            let mut figures = [0; PLACE_FIGURES];
            (figures[2 * at], figures[2 * at + 1]) = (share, dust);
            figures
        };
        let number = |figures| down(&with_figures(&two, figures)).err();
        assert_eq!(number(figures(0, 50_000_000)), None);
        assert_eq!(number(figures(1, 0)), Some(14));
        assert_eq!(number(figures(100, 9)), Some(14));
        assert_eq!(number(figures(101, 0)), Some(7));
        assert_eq!(number(figures(0, 50_000_001)), Some(7));
        let mut both = figures(100, 0);
        both[2 * ((at + 2) % PLACES)] = 1;
        assert_eq!(number(both), Some(13));
        // In edition 1 the bytes of the places are reserved.
        assert_eq!(up(&with_figures(&site, figures(0, 1))), Err(6));
        assert_eq!(up(&with_figures(&site, figures(1, 0))), Err(6));
    }
}

/// 1 comes before everything, whichever of the two lengths is wrong, and the target keeps its content.
#[test]
fn wrong_lengths() {
    let sites = [published::site(), second_edition(0), wrong_from(&DOWN, 0), wrong_from(&UP, 0)];
    for site in sites {
        for length in (0..=2 * BLOCK_BYTES).filter(|&length| length != BLOCK_BYTES) {
            let mut other = site.clone();
            other.resize(length, 0);
            for converter in [to_edition_2, to_edition_1] {
                assert_eq!(converted(converter, &other), Err(1));
                for site in [&site, &other] {
                    let mut target = vec![BEFORE; length];
                    assert_eq!(converter(site, &mut target), Err(Refusal::Length));
                    assert!(target.iter().all(|&byte| byte == BEFORE));
                }
            }
        }
    }
}

/// Each way takes its own edition alone.
#[test]
fn the_wrong_edition_is_4() {
    assert_eq!(up(&second_edition(0)), Err(4));
    assert_eq!(down(&published::site()), Err(4));
    for edition in 0..=u16::MAX {
        let mut site = published::site();
        site[EDITION_AT..EDITION_AT + 2].copy_from_slice(&edition.to_le_bytes());
        seal(&mut site);
        assert_eq!(up(&site).err(), (edition != 1).then_some(4), "up from {edition}");
        assert_eq!(down(&site).err(), (edition != 2).then_some(4), "down from {edition}");
    }
}

/// Up and down again is the same file; down and up again is the same with figures of 0.
#[test]
fn there_and_back_again() {
    let mut generator = Generator::new(710);
    let (mut ups, mut downs) = (0, 0);
    for turn in 0..3_000 {
        let range = Range::of_turn(turn);
        let fields = random::site_fields(&mut generator, range);
        let one = site_file(&fields);
        let two = up(&one).expect("an accepted file of edition 1");
        assert_eq!(check_of(&two), check_of(&one) + 2);
        assert_eq!(word32(&two, BODY_BYTES), check_of(&two));
        assert_eq!((read_site(&two), read_places(&two)), (Ok(fields), Ok(Places::default())));
        assert_eq!(down(&two), Ok(one.clone()));
        ups += 1;
        let places = random::places(&mut generator, range, &fields);
        let file = site_file_2(&fields, &places);
        if places.shares() > 0 {
            assert_eq!(down(&file), Err(14));
            continue;
        }
        let again = down(&file).expect("an accepted file without a share");
        assert_eq!(again, one);
        assert_eq!(up(&again), Ok(site_file_2(&fields, &places.without_dust())));
        downs += 1;
    }
    assert!(ups == 3_000 && downs > 500, "{downs}");
}

/// What is converted, and what it is converted to: the published default, or a random file of either edition.
fn pair(generator: &mut Generator, range: Range) -> (Vec<u8>, Vec<u8>) {
    let fields = random::site_fields(generator, range);
    if generator.once_in(2) {
        let one = site_file(&fields);
        return (one.clone(), up(&one).expect("an accepted file"));
    }
    let mut places = random::places(generator, range, &fields);
    places.0.iter_mut().for_each(|place| place.share = 0);
    let two = site_file_2(&fields, &places);
    (two.clone(), down(&two).expect("an accepted file without a share"))
}

/// Birth, month, run, row and group answer the same before and after, refused or not, with foods and without.
#[test]
fn no_answer_changes() {
    let mut generator = Generator::new(711);
    let (mut accepted, mut refused) = (0, [0; 23]);
    for turn in 0..400 {
        let range = Range::of_turn(turn);
        let (before, after) = pair(&mut generator, range);
        let (_, foods, book) = random::card_of_either_kind(&mut generator, range, turn % 5 / 4);
        let foods = foods.as_deref();
        assert_eq!(birth_foods(&before, foods, &book), birth_foods(&after, foods, &book));
        let state = random::any_state(&mut generator);
        let month = month_foods(&before, foods, &book, &state);
        assert_eq!(month, month_foods(&after, foods, &book, &state));
        let (mut list, mut other_list) = ([9; MONTHS], [9; MONTHS]);
        let run = run_foods(&before, foods, &book, &mut list);
        assert_eq!(run, run_foods(&after, foods, &book, &mut other_list));
        assert_eq!(list, other_list);
        assert_eq!(run, fast::run_foods(&after, foods, &book, &mut other_list));
        let row = random::any_row(&mut generator, range);
        assert_eq!(card_row(&before, foods, &book, &row), card_row(&after, foods, &book, &row));
        let text = random::group_text(&mut generator, range, turn % 4);
        let (mut pairs, mut other_pairs) = ([9; GROUP_ANSWERS], [9; GROUP_ANSWERS]);
        let group = card_group(&before, foods, &book, &text, &mut pairs);
        assert_eq!(group, card_group(&after, foods, &book, &text, &mut other_pairs));
        assert_eq!(pairs, other_pairs);
        accepted += usize::from(run.number == 0);
        for number in [run.number, month.number] {
            refused[number as usize] += usize::from(number != 0);
        }
    }
    assert!(accepted > 100, "{accepted}");
    for number in [9, 20, 22] {
        assert!(refused[number] > 10, "{number}: {refused:?}");
    }
}

/// Files of any damage: the converter goes by the reader, and answers its number if the edition is the one due.
#[test]
fn any_damage_is_refused_as_the_reader_refuses_it() {
    let mut generator = Generator::new(712);
    let mut met = [0; 15];
    for turn in 0..6_000 {
        let site = random::site(&mut generator, Range::of_turn(turn));
        let site = random::scratched_site(&mut generator, site);
        let number = number_of(&read_site(&site));
        for (converter, due) in [(up as fn(&[u8]) -> _, 1), (down, 2)] {
            let outcome: Result<Vec<u8>, u32> = converter(&site);
            let is_due = word16(&site, EDITION_AT) == due;
            let expected = if is_due || number == 3 { number } else { 4 };
            let got = outcome.as_ref().err().copied().unwrap_or(0);
            if expected == 0 && due == 2 && read_places(&site).expect("accepted").shares() > 0 {
                assert_eq!(got, 14);
            } else {
                assert_eq!(got, expected);
            }
            met[got as usize] += 1;
            if let Ok(target) = outcome {
                assert_eq!(read_site(&target), read_site(&site));
                assert_eq!(read_places(&target), Ok(Places::default()));
                assert_eq!(word16(&target, EDITION_AT), 3 - due);
            }
        }
    }
    for number in [0, 3, 4, 6, 7, 13, 14] {
        assert!(met[number] >= 100, "{number}: {met:?}");
    }
}
