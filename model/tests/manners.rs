//! How the programs take their words: `modelline`, `modelcard`, `soak`, `bench`, `fuzz/run`, `bench/leadcard`, `bench/leadline`,
//! and the build without a library.

#[path = "support/folder.rs"]
mod folder;
#[path = "support/repository.rs"]
mod repository;

use folder::Folder;
use jurengate_model::random::{self, Generator};
use std::collections::HashSet;
use std::env;
use std::path::Path;
use std::process::{Command, Stdio};

const MODELLINE: &str = env!("CARGO_BIN_EXE_modelline");
const MODELCARD: &str = env!("CARGO_BIN_EXE_modelcard");
const SOAK: &str = env!("CARGO_BIN_EXE_soak");
const BENCH: &str = env!("CARGO_BIN_EXE_bench");

/// Exit status, standard output and standard error.
type Told = (Option<i32>, String, String);

fn told(command: &mut Command) -> Told {
    let output = command.stdin(Stdio::null()).output().expect("the program runs");
    let text = |bytes: Vec<u8>| String::from_utf8(bytes).expect("text");
    (output.status.code(), text(output.stdout), text(output.stderr))
}

fn run(program: impl AsRef<Path>, words: &[&str]) -> Told {
    told(Command::new(program.as_ref()).args(words))
}

#[test]
fn help_is_printed() {
    let [fuzz, cards, months] = ["fuzz/run", "bench/leadcard", "bench/leadline"].map(repository::at);
    let usages = [
        (Path::new(MODELLINE), "usage: modelline "),
        (Path::new(MODELCARD), "usage: modelcard "),
        (Path::new(SOAK), "usage: soak ["),
        (Path::new(BENCH), "usage: bench "),
        (&fuzz, "usage: fuzz/run ["),
        (&cards, "usage: bench/leadcard ["),
        (&months, "usage: bench/leadline ["),
    ];
    for (program, usage) in usages {
        for option in ["--help", "-h"] {
            let (status, output, errors) = run(program, &[option]);
            assert_eq!((status, errors.as_str()), (Some(0), ""), "{}", program.display());
            assert!(output.starts_with(usage), "{output}");
        }
    }
}

/// Each word is told, and nothing is run.
#[test]
fn words_that_cannot_be_used_are_errors() {
    let [fuzz, cards, months] = ["fuzz/run", "bench/leadcard", "bench/leadline"].map(repository::at);
    let cases: [(&Path, &[&str], &str); 22] = [
        (Path::new(SOAK), &["many"], "soak: `many` is no number from 1 to 4294967295\n"),
        (Path::new(SOAK), &["0"], "soak: `0` is no number from 1"),
        (Path::new(SOAK), &["1", "-1"], "soak: `-1` is no number from 0"),
        (Path::new(SOAK), &["1", "1", "0"], "soak: `0` is no number from 1"),
        (Path::new(SOAK), &["1", "1", "1", "1"], "soak: `1` is a word too many\n"),
        (Path::new(SOAK), &["2", "0", "4294967295"], "soak: a seed has 4294967295 cards\n"),
        (Path::new(MODELLINE), &["card"], "modelline: `card` is no option\n"),
        (Path::new(MODELCARD), &["card.txt"], "modelcard: `card.txt` is no option\n"),
        (Path::new(BENCH), &["10"], "bench: `10` is no option\n"),
        (&fuzz, &["long"], "fuzz: 'long' is no number of seconds from 1 up"),
        (&fuzz, &["0"], "fuzz: '0' is no number of seconds from 1 up"),
        (&fuzz, &["1.5"], "fuzz: '1.5' is no number of seconds from 1 up"),
        (&fuzz, &[""], "fuzz: '' is no number of seconds from 1 up"),
        (&fuzz, &["--selfcheck"], "fuzz: '--selfcheck' is no number"),
        (&fuzz, &["1", "2"], "fuzz: one word is due at most"),
        (&cards, &["0"], "bench/leadcard: one number of megabytes is due at most\n"),
        (&cards, &["1", "2"], "bench/leadcard: one number of megabytes is due at most\n"),
        (&months, &["0"], "bench/leadline: a number of runs and a program are due at most\n"),
        (&months, &["many"], "bench/leadline: a number of runs and a program are due at most\n"),
        (&months, &["1", MODELLINE, "2"], "bench/leadline: a number of runs and a program are due at most\n"),
        (&months, &["1", "nowhere"], "bench/leadline: `nowhere` is no program ("),
        (&months, &["1", "/"], "bench/leadline: `/` is no program ("),
    ];
    for (program, words, due) in cases {
        let (status, output, errors) = run(program, words);
        assert_eq!((status, output.as_str()), (Some(2), ""), "{words:?}");
        assert!(errors.starts_with(due) && errors.contains("--help"), "{errors}");
    }
}

/// A line for each program: its times, and memory that is more than none and under 6 MB, less than the Python needs that started it.
#[test]
fn leadline_is_timed_beside_another_program() {
    let (status, output, errors) = run(repository::at("bench/leadline"), &["5", MODELLINE]);
    assert_eq!((status, errors.as_str()), (Some(0), ""));
    let lines: Vec<&str> = output.lines().collect();
    assert!(lines.len() == 2 && lines[1].starts_with(MODELLINE), "{output}");
    for line in lines {
        let (program, figures) = line.split_once(": fastest lot ").expect("a program and its figures");
        assert!(Path::new(program).is_file(), "{line}");
        let told: Vec<u64> = figures.split(' ').filter_map(|word| word.parse().ok()).collect();
        let [fastest, middle, memory] = told[..] else { panic!("three numbers: {line}") };
        assert_eq!(
            figures,
            format!("{fastest} µs a run, middle lot {middle} µs a run, {memory} kB of memory")
        );
        assert!(0 < fastest && fastest <= middle && (1..6_000).contains(&memory), "{line}");
    }
}

#[test]
fn no_card_comes_twice_in_a_seed_or_in_another() {
    let (seeds, cards) = (4, 100);
    let mut seen = HashSet::new();
    for seed in 0..seeds {
        for number in 1..=cards {
            let mut generator = Generator::of_card(seed, number);
            let range = random::range(&mut generator);
            assert!(seen.insert(random::card(&mut generator, range, 0)), "card {number} of seed {seed}");
        }
    }
}

/// What the soak compared, without the time that it took.
fn soaked(words: &[&str]) -> String {
    let (status, output, errors) = run(SOAK, words);
    assert_eq!((status, errors.as_str()), (Some(0), ""));
    let (compared, time) = output.split_once("no mismatch").expect("the last line");
    assert!(time.ends_with(" s\n"));
    compared.to_string()
}

#[test]
fn seed_and_first_card_choose_the_soak_s_cards() {
    let first = soaked(&["40"]);
    assert_eq!(first, soaked(&["40", "0"]));
    assert_eq!(first, soaked(&["40", "0", "1"]));
    assert!(first.starts_with("40 runs: "));
    let compared: HashSet<String> = (0..4).map(|seed| soaked(&["40", &seed.to_string()])).collect();
    assert_eq!(compared.len(), 4);
    assert!(first != soaked(&["40", "0", "2"]));
}

/// A reader that has read enough ends the bench at its first line, without a panic.
#[test]
fn the_bench_ends_with_its_reader() {
    let mut child =
        Command::new(BENCH).stdout(Stdio::piped()).stderr(Stdio::piped()).spawn().expect("the bench runs");
    drop(child.stdout.take());
    let output = child.wait_with_output().expect("the bench ends");
    assert_eq!((output.status.code(), String::from_utf8_lossy(&output.stderr).as_ref()), (Some(0), ""));
}

/// The build script, run as cargo runs it, names the missing library and the command that builds it.
#[test]
fn a_missing_library_is_named_with_its_command() {
    let folder = Folder::new("build");
    let script = folder.path().join("build");
    let compiler = env::var_os("RUSTC").unwrap_or_else(|| "rustc".into());
    let source = repository::at("model/build.rs");
    let (status, _, errors) =
        told(Command::new(compiler).args(["--edition", "2021", "-o"]).arg(&script).arg(source));
    assert_eq!(status, Some(0), "{errors}");
    let build = || {
        let (status, output, _) = told(
            Command::new(&script).env("CARGO_FEATURE_ENGINE", "1").env("JURENGATE_LIB_DIR", folder.path()),
        );
        assert_eq!(status, Some(0));
        output
    };
    let missing = |name: &str| {
        let library = folder.path().join(format!("lib{name}.a"));
        let how = format!("build it with `./build {name}`, or");
        build()
            .contains(&format!("cargo::error=the engine's library {} is missing: {how}", library.display()))
    };
    let linked =
        |name: &str| build().lines().any(|line| line == format!("cargo:rustc-link-lib=static={name}"));
    let libraries = ["jurengate", "jurengate_cards"];
    assert!(libraries.iter().all(|name| missing(name) && !linked(name)));
    folder.write("libjurengate.a", b"");
    assert!(!missing("jurengate") && missing("jurengate_cards"));
    folder.write("libjurengate_cards.a", b"");
    assert!(libraries.iter().all(|name| linked(name)) && !build().contains("cargo::error"));
}
