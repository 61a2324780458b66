//! How the programs speak: standard output, which a reader may close, and how they end.

use std::env;
use std::io::{self, ErrorKind, Write};
use std::process::ExitCode;

/// The exit status after words on the command line that a program cannot use.
pub const WRONG_USAGE: u8 = 2;

/// The words of the command line.
pub fn words() -> Vec<String> {
    env::args_os().skip(1).map(|word| word.to_string_lossy().into_owned()).collect()
}

/// Whether the words ask for help.
pub fn asks_for_help(words: &[String]) -> bool {
    matches!(words, [only] if only == "--help" || only == "-h")
}

/// Writes to standard output at once.
pub fn print(text: impl AsRef<[u8]>) -> io::Result<()> {
    let mut output = io::stdout().lock();
    output.write_all(text.as_ref())?;
    output.flush()
}

/// The exit status after printing; a reader that has read enough, as `head`, is no failure.
pub fn ended(program: &str, printed: io::Result<()>) -> ExitCode {
    match printed {
        Err(why) if why.kind() != ErrorKind::BrokenPipe => {
            eprintln!("{program}: standard output: {why}");
            ExitCode::FAILURE
        }
        _ => ExitCode::SUCCESS,
    }
}

/// Says what is wrong with the command line, and how it goes.
pub fn misused(program: &str, what: &str, usage: &str) -> ExitCode {
    eprint!("{program}: {what}\n\n{usage}");
    ExitCode::from(WRONG_USAGE)
}
