//! `bench/stack.c`, built and run on the default card and the published foods: every call is accepted and stays within
//! its stack.

#[path = "support/c_program.rs"]
mod c_program;
#[path = "support/folder.rs"]
mod folder;
#[path = "support/repository.rs"]
mod repository;
#[path = "support/stack_bounds.rs"]
mod stack_bounds;

use folder::Folder;
use jurengate_model::book::{BOOK_ROWS, ROW_FIELDS};
use jurengate_model::cards::{curves, foods_file, published};
use stack_bounds::{CARDS_STACK_BOUNDS, STACK_BOUNDS};
use std::process::Command;

/// Stack that no call may reach, a quarter of the box's memory; the group has a limit of its own.
const BOX_STACK: usize = 16 * 1024;
/// The group's: half of the box's memory. A group is a desktop's job first, but it fits the box beside its files.
const BOX_GROUP_STACK: usize = 32 * 1024;
/// The call that has the group's limit.
const GROUP: &str = "card_group";
/// The book's table, which a run, a row and a group keep on their stack: a smaller figure measures nothing.
const TABLE_BYTES: usize = 4 * BOOK_ROWS * ROW_FIELDS;

/// The calls of both libraries with their bounds.
fn bounds() -> Vec<(&'static str, usize)> {
    [&STACK_BOUNDS[..], &CARDS_STACK_BOUNDS].concat()
}

/// A line `name: N bytes of stack, refusal R` as name, N and R.
fn measured(line: &str) -> (String, usize, u32) {
    let parts: Vec<&str> = line.split([':', ' ', ',']).filter(|part| !part.is_empty()).collect();
    let [name, bytes, "bytes", "of", "stack", "refusal", refusal] = parts[..] else {
        panic!("not a measurement: {line}")
    };
    (name.to_string(), bytes.parse().expect("a count of bytes"), refusal.parse().expect("a refusal number"))
}

/// What `bench/stack.c` measures on the default card and the published foods.
fn measure() -> Vec<(String, usize, u32)> {
    let folder = Folder::new("stack");
    let program = folder.path().join("stack");
    let archives = [c_program::library(), c_program::cards_library()];
    c_program::build_with(&repository::at("bench/stack.c"), &archives, &["-lpthread"], &program);
    let card =
        [("site", published::site()), ("foods", foods_file(&published::foods())), ("book", curves::book())];
    let files = card.map(|(name, bytes)| folder.write(name, &bytes));
    let output = Command::new(&program).args(files).output().expect("the measurement runs");
    assert!(output.status.success(), "{}", String::from_utf8_lossy(&output.stderr));
    String::from_utf8(output.stdout).expect("text").lines().map(measured).collect()
}

#[test]
fn every_call_keeps_to_its_stack() {
    let calls = measure();
    assert_eq!(calls.len(), bounds().len());
    for ((name, bytes, refusal), (due, bound)) in calls.iter().zip(bounds()) {
        assert_eq!((name.as_str(), *refusal), (due, 0));
        assert!(*bytes > 0, "jurengate_{name}: no stack at all was measured");
        assert!(
            *bytes <= bound,
            "jurengate_{name} has grown: it took {bytes} bytes of stack and may take {bound}"
        );
    }
    let keeps_table = |name: &str| name.starts_with("run") || name.starts_with("card_");
    for (name, bytes, _) in calls.iter().filter(|(name, ..)| keeps_table(name)) {
        assert!(*bytes >= TABLE_BYTES, "the {name} took {bytes} bytes of stack, less than its table");
    }
}

#[test]
fn no_bound_reaches_a_quarter_of_the_box() {
    for (name, bound) in bounds().into_iter().filter(|(name, _)| *name != GROUP) {
        assert!(bound < BOX_STACK, "{name}");
    }
}

#[test]
fn the_group_s_bound_stays_below_half_of_the_box() {
    let bound = bounds().into_iter().find(|(name, _)| *name == GROUP).expect("the group has a bound").1;
    assert!(bound < BOX_GROUP_STACK, "{bound}");
}
