//! The engine held to the model, call by call; `engine_foods` has the calls with a foods block (feature `engine`).

#[path = "support/comparison.rs"]
mod comparison;
#[path = "support/month.rs"]
mod month;

use comparison::{list_length, Comparison};
use jurengate_model::block::{BLOCK_BYTES, BODY_BYTES};
use jurengate_model::cards::{self, curves, published};
use jurengate_model::demand3::{month_uptake, Ends};
use jurengate_model::ffi;
use jurengate_model::kinetics::step_uptake;
use jurengate_model::random::{self, damaged, file_faults, row_faults, Fault, Generator, Range, INTAKES};
use jurengate_model::site::{self, place, AGES, PLACES, SITE_FIELDS};
use jurengate_model::state::{State, BURDEN_LIMIT, MONTHS};
use jurengate_model::uptake::age_of;
use month::check_month;

#[test]
fn the_published_defaults() {
    let mut comparison = Comparison::new("published defaults");
    let (site, book) = (published::site(), curves::book());
    assert_eq!(comparison.read_site(&site), 0);
    let whole = comparison.run(&site, &book, MONTHS);
    assert_eq!((whole.number, whole.months), (0, 84));
    let mut state = comparison.birth(&site, &book).state;
    for _ in 0..MONTHS {
        state = comparison.month(&site, &book, &state).state;
    }
    assert_eq!(state, whole.state);
    assert_eq!(comparison.month(&site, &book, &state).number, 21);
}

#[test]
fn random_whole_runs() {
    let mut comparison = Comparison::new("whole runs");
    let mut generator = Generator::new(101);
    for turn in 0..600 {
        let range = Range::of_turn(turn);
        let (site, book) = random::card(&mut generator, range, 0);
        let length = list_length(&mut generator);
        comparison.run(&site, &book, length);
    }
    assert!(comparison.accepted > 300, "runs to the end");
}

#[test]
fn random_months_from_any_state() {
    let mut comparison = Comparison::new("months from any state");
    let mut generator = Generator::new(102);
    for turn in 0..6_000 {
        let range = Range::of_turn(turn);
        let (site, book) = random::card(&mut generator, range, 0);
        comparison.birth(&site, &book);
        comparison.month(&site, &book, &random::any_state(&mut generator));
    }
    assert!(comparison.accepted > 6_500, "{} births and months", comparison.accepted);
}

#[test]
fn states_at_and_past_each_limit() {
    let mut comparison = Comparison::new("states at the limits");
    let mut generator = Generator::new(103);
    let (site, book) = (published::site(), curves::book());
    let burden = 50_000_000_000u64;
    for place in 0..7 {
        for lead in [0, 1, burden - 1, burden, burden + 1, 1 << 63, u64::MAX] {
            let mut state = State::default();
            state.compartments[place] = lead;
            comparison.month(&site, &book, &state);
        }
    }
    for month in [0, 1, 11, 12, 82, 83, 84, 85, 1 << 32, (1 << 32) + 1, u64::MAX] {
        let room =
            u64::try_from(u128::from(burden) + u128::from(month) * 180_000_000_000).unwrap_or(u64::MAX);
        for ledger in 0..3 {
            for left in [0, room - 1, room, room.saturating_add(1), u64::MAX] {
                let mut state = State { month, ..State::default() };
                state.ledgers[ledger] = left;
                comparison.month(&site, &book, &state);
            }
        }
    }
    for _ in 0..1_500 {
        comparison.month(&site, &book, &random::no_state(&mut generator));
        comparison.month(&site, &book, &random::state(&mut generator, true));
        comparison.month(&site, &book, &random::any_numbers(&mut generator));
    }
}

/// Books that let nothing out: the burden meets its limit at a chosen step exactly, or passes it by one.
#[test]
fn burdens_at_and_past_the_limit_at_each_step() {
    let mut comparison = Comparison::new("burdens at the limit");
    let mut generator = Generator::new(110);
    for turn in 0..600 {
        let range = Range::of_turn(turn);
        let book = cards::book_file(&random::closed_rows(&mut generator, range));
        let mut fields = random::site_fields(&mut generator, Range::Near);
        let month = generator.between(0, MONTHS as u64 - 1);
        fields[place::DIET + age_of(month as usize + 1)] = generator.sized(100_000_000) as u32;
        let site = cards::site_file(&fields);
        let day = month_uptake(&site, None, &book, month).expect("near intakes are within their limit") / 30;
        let steps = [0, 1, 5, 6, 178, 179, generator.between(0, 179)][turn % 7];
        let absorbed: u64 = (0..=steps).map(|step| step_uptake(day, u128::from(step % 6))).sum();
        for past in [0, 1] {
            let burden = (BURDEN_LIMIT as u64 + past).saturating_sub(absorbed);
            let state = random::burdened(&mut generator, month, burden);
            let answer = comparison.month(&site, &book, &state);
            if past == 1 && burden > 0 {
                assert_ne!(answer.number, 0);
            } else if steps == 179 {
                assert_eq!(answer.number, 0);
            }
        }
    }
}

#[test]
fn births_at_and_past_the_limit() {
    let mut comparison = Comparison::new("births at the limit");
    let mut generator = Generator::new(111);
    for burden in (0..10).flat_map(|_| [BURDEN_LIMIT - 1, BURDEN_LIMIT, BURDEN_LIMIT + 1, BURDEN_LIMIT + 2]) {
        let (mother, row) = random::newborn_of(&mut generator, burden as u64);
        let mut fields = published::fields();
        fields[place::MOTHER] = mother;
        let mut rows = curves::rows();
        rows[0] = row;
        let (site, book) = (cards::site_file(&fields), cards::book_file(&rows));
        let newborn = comparison.birth(&site, &book);
        assert_eq!(newborn.number, if burden > BURDEN_LIMIT { 22 } else { 0 });
        comparison.run(&site, &book, MONTHS);
    }
}

#[test]
fn site_fields_at_and_past_their_limits() {
    let mut comparison = Comparison::new("site fields at their limits");
    let book = curves::book();
    for index in 0..SITE_FIELDS {
        let (least, most) = (site::least(index), site::most(index));
        for value in [0, 1, least, least.saturating_sub(1), most - 1, most, most + 1, 1 << 31, u32::MAX] {
            let mut fields = published::fields();
            fields[place::FIRST_DRAW_SHARE..=place::FOUNTAIN_SHARE].fill(0);
            fields[index] = value;
            let site = cards::site_file(&fields);
            comparison.read_site(&site);
            comparison.birth(&site, &book);
        }
    }
}

/// Every kind of fault, each block, every site field and every row fault among them.
fn every_fault() -> Vec<Fault> {
    let mut faults = file_faults();
    for (index, fault) in row_faults().into_iter().enumerate() {
        faults.extend([0, 4, 5, 24, 84, (7 * index) % 85].map(|month| Fault::Row(month, fault)));
    }
    for intake in INTAKES {
        faults.extend((0..AGES).map(|age| Fault::Intake(intake, age)));
    }
    for place in 0..PLACES {
        faults.extend((0..AGES).map(|age| Fault::PlaceIntake(place, age)));
    }
    faults
}

#[test]
fn every_single_fault() {
    let mut comparison = Comparison::new("single faults");
    let mut generator = Generator::new(104);
    for fault in every_fault() {
        let (site, book) = damaged(&mut generator, &published::fields(), &curves::rows(), &[fault]);
        comparison.all(&site, &book, &random::any_state(&mut generator));
    }
}

#[test]
fn several_faults_at_once() {
    let mut comparison = Comparison::new("several faults");
    let mut generator = Generator::new(105);
    for turn in 0..2_000 {
        let range = Range::of_turn(turn);
        let faults = generator.between(1, 4) as usize;
        let (site, book) = random::card(&mut generator, range, faults);
        let length = list_length(&mut generator);
        comparison.all_of_site(&site);
        comparison.birth(&site, &book);
        comparison.month(&site, &book, &random::any_state(&mut generator));
        comparison.run(&site, &book, length);
    }
}

#[test]
fn random_bytes() {
    let mut comparison = Comparison::new("random bytes");
    let mut generator = Generator::new(106);
    for _ in 0..300 {
        let lengths = [[512, 8_704], [8_704, 512], [0, 0], [512, 0]][generator.index(4)];
        let [site, book] =
            lengths.map(|length| (0..length).map(|_| generator.any() as u8).collect::<Vec<u8>>());
        comparison.all(&site, &book, &random::any_state(&mut generator));
        let mut sealed = site.clone();
        sealed.resize(BLOCK_BYTES, 0);
        cards::seal(&mut sealed);
        comparison.all(&sealed, &curves::book(), &random::any_state(&mut generator));
    }
}

#[test]
fn lists_of_wrong_lengths() {
    let mut comparison = Comparison::new("lists of wrong lengths");
    let mut generator = Generator::new(107);
    let (site, book) = (published::site(), curves::book());
    for length in (0..200).chain([8_400, 84_000]) {
        comparison.run(&site, &book, length);
        let fault = random::fault(&mut generator);
        let (site, book) = damaged(&mut generator, &published::fields(), &curves::rows(), &[fault]);
        comparison.run(&site, &book, length);
    }
}

#[test]
fn the_writer_and_read_back() {
    let mut comparison = Comparison::new("writer and read-back");
    let mut generator = Generator::new(108);
    for turn in 0..2_000 {
        let body_length = if generator.once_in(4) { generator.index(600) } else { BODY_BYTES };
        let target_length = if generator.once_in(4) { generator.index(600) } else { BLOCK_BYTES };
        let body: Vec<u8> = (0..body_length).map(|_| generator.any() as u8).collect();
        comparison.write_block(&body, target_length);
        let fields = random::site_fields(&mut generator, Range::of_turn(turn));
        let site = cards::site_file(&fields);
        let mut written = vec![0; BLOCK_BYTES];
        assert_eq!(ffi::write_block(&site[..BODY_BYTES], &mut written), 0);
        assert_eq!(ffi::read_site(&written), (0, fields));
        comparison.read_site(&written);
        let places = random::places(&mut generator, Range::of_turn(turn), &fields);
        let site = cards::site_file_2(&fields, &places);
        assert_eq!(ffi::write_block(&site[..BODY_BYTES], &mut written), 0);
        assert_eq!(ffi::read_site(&written), (0, fields));
        assert_eq!(ffi::read_places(&written), (0, places));
    }
    comparison.write_block(&[0xFF; BODY_BYTES], BLOCK_BYTES);
    comparison.write_block(&[0; BODY_BYTES], BLOCK_BYTES);
}

/// One call of a list: its own files, with a foods block or without, sometimes damaged, mostly near the defaults.
fn call_files(generator: &mut Generator) -> (Vec<u8>, Option<Vec<u8>>, Vec<u8>) {
    let range = if generator.once_in(4) { random::range(generator) } else { Range::Near };
    let faults = usize::from(generator.once_in(5));
    random::card_of_either_kind(generator, range, faults)
}

/// Lists of calls with refused ones among them: the engine's own month ends balance
/// between every two, and each accepted month is the one whose steps keep the margin.
#[test]
fn demand_3_over_lists_of_calls() {
    let mut comparison = Comparison::new("lists of calls");
    let mut generator = Generator::new(109);
    let (mut pairs, mut months, mut with_foods) = (0, 0, 0);
    for _ in 0..40 {
        let mut ends = Ends::default();
        let (site, foods, book) = call_files(&mut generator);
        comparison.birth_foods(&site, foods.as_deref(), &book);
        let newborn = ffi::birth_foods(&site, foods.as_deref(), &book);
        let mut state = newborn.state;
        if newborn.number == 0 {
            ends.note(state, 0);
        }
        for _ in 0..60 {
            let (site, foods, book) = call_files(&mut generator);
            let foods = foods.as_deref();
            let answer = comparison.month_foods(&site, foods, &book, &state);
            if answer.number != 0 {
                continue;
            }
            with_foods += usize::from(foods.is_some());
            ends.note(answer.state, check_month(&site, foods, &book, &state, &answer.state));
            (months, state) = (months + 1, answer.state);
        }
        pairs += ends.balance().expect("every two ends balance");
    }
    assert!(months > 1_500 && pairs > 30_000 && with_foods > months / 3);
    println!(
        "lists of calls: {pairs} pairs of month ends balanced, {} steps within the margin",
        180 * months
    );
}
