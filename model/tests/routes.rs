//! The two routes through the gut (request 6): the passive and the active part of each eaten medium, their sum with the
//! air, and how far the day's uptake T moves if one medium's q rises.

#[path = "support/equations.rs"]
mod equations;
#[path = "support/route_cards.rs"]
mod route_cards;

use equations::day;
use jurengate_model::book::RowFields;
use jurengate_model::cards::{book_file, site_file};
use jurengate_model::demand3::month_uptake;
use jurengate_model::engine::read_files;
use jurengate_model::random::{self, Generator, Range};
use jurengate_model::site::{place, AGES, EATEN_MEDIA, SITE_FIELDS};
use jurengate_model::uptake::{day_routes, Routes};
use route_cards::{four_in_balance, most_active, most_passive, Numbers};

/// Five numbers, one for each eaten medium.
type Media = [u128; EATEN_MEDIA];

/// Most that an intake, and so a q, is in an accepted month.
const Q_MOST: u64 = 1_000_000_000;
/// The highest saturation that files can have, and the lowest: 10^6 × 2,000 / 50,000.
const SAT_MOST: u64 = 12_500_000_000;
const SAT_LEAST: u128 = 40_000;

/// The routes that the model takes from a card's files, with their refusals.
fn routes_of_files(fields: &[u32; SITE_FIELDS], rows: &[RowFields], month: usize) -> Option<Routes> {
    let (site, book) =
        read_files(&site_file(fields), None, &book_file(rows)).expect("files that are accepted");
    day_routes(&site, &book, month).ok()
}

/// T from a card's files, in every month the same.
fn uptake_of_files((fields, rows): &Numbers) -> u128 {
    let (site, book) = (site_file(fields), book_file(rows));
    let month = |month: u64| month_uptake(&site, None, &book, month).expect("no intake over its limit");
    let first = month(0);
    assert!((1..84).all(|done| month(done) == first));
    first / 30
}

#[test]
fn the_routes_are_those_of_the_equations() {
    let mut generator = Generator::new(91);
    let (mut accepted, mut refused, mut all_parts) = (0, 0, 0);
    for turn in 0..900 {
        let range = Range::of_turn(turn);
        let mut fields = random::site_fields(&mut generator, range);
        let rows = random::rows(&mut generator, range);
        // The published site has no alternate source.
        if range == Range::Near {
            fields[place::ALTERNATE..place::ALTERNATE + AGES].fill(generator.sized(Q_MOST) as u32);
            fields[place::ABSORBED + 4] = generator.between(1, 100) as u32;
        }
        let any = generator.between(1, 84) as usize;
        for month in [1, 12, 13, 24, 25, 72, 73, 84, any] {
            let routes = routes_of_files(&fields, &rows, month);
            let Some(due) = day(&fields, &rows, month) else {
                assert_eq!(routes, None);
                refused += 1;
                continue;
            };
            let routes = routes.expect("a month whose intakes are within their limit");
            assert_eq!((routes.passive, routes.active, routes.air), (due.passive, due.active, due.air));
            let mut total = due.air;
            for medium in 0..EATEN_MEDIA {
                let both = routes.passive[medium] + routes.active[medium];
                assert!(both <= due.q[medium], "medium {medium} of {routes:?}");
                total += due.passive[medium] + due.active[medium];
            }
            assert_eq!(routes.uptake(), total);
            accepted += 1;
            all_parts += usize::from(due.passive.iter().chain(&due.active).all(|&part| part > 0));
        }
    }
    assert!(
        accepted > 3_000 && refused > 300 && all_parts > 300,
        "{accepted} accepted, {refused} refused, {all_parts} with all ten parts"
    );
}

/// Parts of five media, worked out by hand: two differ in their passive share alone, and one is all passive.
#[test]
fn parts_known_beforehand() {
    let routes = Routes::of_q(&[1_000, 1_000, 999, 7, 0], &[20, 0, 100, 33, 50], 9_018, 5);
    assert_eq!(routes.passive, [200, 0, 999, 2, 0]);
    assert_eq!(routes.active, [600, 750, 0, 3, 0]);
    assert_eq!((routes.all_passive(), routes.all_active(), routes.air), (1_201, 1_353, 5));
    assert_eq!(routes.uptake(), 2_559);
}

/// Said without a division: 100 u is at most share × q, and 100 (u + 1) is more; likewise v with SAT + A.
#[test]
fn each_part_is_the_greatest_number_that_fits() {
    let mut generator = Generator::new(92);
    for _ in 0..100_000 {
        let case = Case::random(&mut generator);
        let routes = case.routes();
        let divisor = case.saturation + case.q.iter().sum::<u128>();
        for medium in 0..EATEN_MEDIA {
            let (u, v) = (routes.passive[medium], routes.active[medium]);
            let share_of_q = case.shares[medium] * case.q[medium];
            assert!(100 * u <= share_of_q && share_of_q < 100 * (u + 1), "{case:?}");
            let rest = (case.q[medium] - u) * case.saturation;
            assert!(v * divisor <= rest && rest < (v + 1) * divisor, "{case:?}");
        }
    }
}

/// What the day's uptake goes by, and a rise of one medium's q.
#[derive(Clone, Copy, Debug)]
struct Case {
    q: Media,
    shares: Media,
    saturation: u128,
    air: u128,
    medium: usize,
    h: u128,
}

impl Case {
    fn routes(&self) -> Routes {
        Routes::of_q(&self.q, &self.shares, self.saturation, self.air)
    }

    /// How far T moves.
    fn moves(&self) -> i128 {
        let mut risen = *self;
        risen.q[self.medium] += self.h;
        risen.routes().uptake() as i128 - self.routes().uptake() as i128
    }

    /// Any numbers within the limits that accepted files keep, and saturations below them.
    fn random(generator: &mut Generator) -> Case {
        let saturation = match generator.index(4) {
            0 => SAT_LEAST,
            1 => generator.between(1, 100).into(),
            2 => SAT_MOST.into(),
            _ => u128::from(generator.sized(SAT_MOST - 1)) + 1,
        };
        let draw = [Generator::sized, Generator::at_limits][generator.index(2)];
        Case {
            q: std::array::from_fn(|_| draw(generator, Q_MOST).into()),
            shares: std::array::from_fn(|_| generator.at_limits(100).into()),
            saturation,
            air: generator.at_limits(Q_MOST).into(),
            medium: generator.index(EATEN_MEDIA),
            h: draw(generator, Q_MOST).into(),
        }
    }

    /// Four media whose active parts come out even, so that each loses a whole pg as soon as the fifth rises: with A of
    /// k × SAT they are q / (1 + k).
    fn balanced(generator: &mut Generator) -> Case {
        let k = generator.between(1, 40);
        let saturation = 4 * (1 + k) * generator.between(1, SAT_MOST / 164);
        let mut case = Case::random(generator);
        case.q = [u128::from(saturation / 4 * k); EATEN_MEDIA];
        case.q[case.medium] = 0;
        (case.shares, case.saturation) = ([0; EATEN_MEDIA], saturation.into());
        case.h = generator.between(0, 2 * k).into();
        case
    }

    /// One medium that passes whole, beside others that have nothing to lose.
    fn alone(generator: &mut Generator) -> Case {
        let mut case = Case::random(generator);
        for medium in (0..EATEN_MEDIA).filter(|&medium| medium != case.medium) {
            case.q[medium] = generator.between(0, 1).into();
        }
        case.shares[case.medium] = generator.between(98, 100).into();
        case
    }
}

/// The claim holds of every case, and both of its ends are met in every medium: T − 4, and T + h, which is within h + 4.
#[test]
fn a_rise_of_one_q_moves_the_uptake_by_4_less_to_h_more() {
    let mut generator = Generator::new(93);
    let (mut least, mut most_over) = ([0; EATEN_MEDIA], [i128::MIN; EATEN_MEDIA]);
    let mut fallen = 0;
    for _ in 0..100_000 {
        for draw in [Case::random, Case::balanced, Case::alone] {
            let case = draw(&mut generator);
            let (moves, h) = (case.moves(), case.h as i128);
            assert!((-4..=h).contains(&moves), "{case:?} moves {moves}");
            least[case.medium] = moves.min(least[case.medium]);
            if h > 0 {
                most_over[case.medium] = (moves - h).max(most_over[case.medium]);
            }
            fallen += usize::from(moves < 0);
        }
    }
    assert_eq!((least, most_over), ([-4; EATEN_MEDIA], [0; EATEN_MEDIA]));
    assert!(fallen > 10_000, "{fallen} cases in which T falls");
}

/// The five numbers with the first of them in the place of each medium in turn.
fn in_each_place(first_is_the_risen: Media) -> [(usize, Media); EATEN_MEDIA] {
    std::array::from_fn(|medium| {
        let mut q = first_is_the_risen;
        q.rotate_right(medium);
        (medium, q)
    })
}

/// T before and after the rise, nothing passive.
fn active_alone(q: Media, saturation: u128, medium: usize, h: u128) -> (u128, u128) {
    let case = Case { q, shares: [0; EATEN_MEDIA], saturation, air: 0, medium, h };
    let before = case.routes().uptake();
    (before, (before as i128 + case.moves()) as u128)
}

#[test]
fn a_fall_of_4_is_met_in_each_medium() {
    let small = [0, 2, 2, 2, 2];
    let even = [0, 10_000, 10_000, 10_000, 10_000];
    let large = [0, 407_118_880, 99_998_080, 994_324_800, 760_918_240];
    let cases = [
        (small, 8, 1, (4, 0)),
        (even, SAT_LEAST, 1, (20_000, 19_996)),
        (large, SAT_LEAST, 725_147_601, (39_999, 39_995)),
    ];
    for (q, saturation, h, due) in cases {
        for (medium, q) in in_each_place(q) {
            assert_eq!(active_alone(q, saturation, medium, h), due, "medium {medium} of {q:?}");
        }
    }
}

/// What is all passive, and alone, brings the whole rise; nothing brings more.
#[test]
fn a_rise_by_h_is_met_in_each_medium() {
    for h in [0, 1, 999, 1_000_000_000] {
        for (medium, q) in in_each_place([7, 0, 0, 0, 0]) {
            for saturation in [1, SAT_LEAST, SAT_MOST.into()] {
                let case = Case { q, shares: [100; EATEN_MEDIA], saturation, air: 3, medium, h };
                assert_eq!((case.routes().uptake(), case.moves()), (10, h as i128), "medium {medium}");
            }
        }
    }
}

/// 250,000 of each of four media at a saturation of 10^6 are halved; a single pg of diet takes one from each.
#[test]
fn one_pg_of_diet_takes_4_from_the_uptake_of_a_card() {
    assert_eq!(uptake_of_files(&four_in_balance(0)), 500_000);
    assert_eq!(uptake_of_files(&four_in_balance(1)), 499_996);
    let (fields, rows) = four_in_balance(1);
    let routes = routes_of_files(&fields, &rows, 84).expect("no intake over its limit");
    assert_eq!((routes.passive, routes.active), ([0; 5], [0, 124_999, 124_999, 124_999, 124_999]));
    assert_eq!(routes.air, 0);
}

/// The highest sums: passive is over 32 bits, active is five times 10^9 × 1.25×10^10 / 1.75×10^10.
#[test]
fn the_highest_sums_of_a_card() {
    let (fields, rows) = most_passive();
    let routes = routes_of_files(&fields, &rows, 1).expect("no intake over its limit");
    assert_eq!((routes.passive, routes.active), ([1_000_000_000; 5], [0; 5]));
    assert_eq!((routes.all_passive(), routes.air), (5_000_000_000, 33_917));
    assert_eq!(routes.uptake(), 5_000_033_917);
    let (fields, rows) = most_active();
    let routes = routes_of_files(&fields, &rows, 1).expect("no intake over its limit");
    assert_eq!((routes.passive, routes.active), ([0; 5], [714_285_714; 5]));
}

/// Diet and alternate that are absorbed whole are q themselves: the claim through files, at every age.
#[test]
fn a_rise_through_files_keeps_the_same_bounds() {
    let mut generator = Generator::new(94);
    let (mut moved, mut fallen) = (0, 0);
    for turn in 0..600 {
        let range = Range::of_turn(turn);
        let mut fields = random::site_fields(&mut generator, range);
        let rows = random::rows(&mut generator, range);
        let medium = [0, 4][generator.index(2)];
        let group = [place::DIET, place::ALTERNATE][medium / 4];
        fields[place::ABSORBED + medium] = 100;
        for age in 0..AGES {
            let month = 12 * age + 1 + generator.index(12);
            let Some(before) = routes_of_files(&fields, &rows, month) else { continue };
            let mut risen = fields;
            let room = Q_MOST - u64::from(fields[group + age]);
            let most = if generator.once_in(2) { room.min(5) } else { room };
            let h = generator.sized(most) as u32;
            risen[group + age] += h;
            let after = routes_of_files(&risen, &rows, month).expect("a diet within its limit");
            let moves = after.uptake() as i128 - before.uptake() as i128;
            assert!((-4..=i128::from(h)).contains(&moves), "{h} in month {month} moves T by {moves}");
            moved += usize::from(moves > 0);
            fallen += usize::from(moves < 0);
        }
    }
    assert!(moved > 1_000 && fallen > 10, "{moved} rose, {fallen} fell");
}
