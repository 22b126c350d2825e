//! The ways of a command line: words in, problems on standard error, a status at the end.

use std::collections::BTreeMap;
use std::env;
use std::process::ExitCode;

/// The status of a program that was called in a way that it does not know.
const BAD_USAGE: u8 = 2;

/// The words behind the program's name, as a slice of text is easier to match.
pub fn with_words(name: &str, run: impl FnOnce(&[&str]) -> Result<(), String>) -> ExitCode {
    let words: Vec<String> = env::args().skip(1).collect();
    let words: Vec<&str> = words.iter().map(String::as_str).collect();
    end(name, run(&words))
}

/// The status of a program that did its work or could not; in that case the problem is said.
pub fn end(name: &str, done: Result<(), String>) -> ExitCode {
    match done {
        Ok(()) => ExitCode::SUCCESS,
        Err(problem) => {
            eprintln!("{name}: {problem}");
            ExitCode::FAILURE
        },
    }
}

/// Options with a value each, as `--seed 7`.
pub struct Options {
    name: &'static str,
    help: &'static str,
    given: BTreeMap<String, String>,
}

impl Options {
    /// The options on the command line. Where help is asked for, or one is not known, that is said, and the error is the
    /// status to end with.
    pub fn read(name: &'static str, help: &'static str, known: &[&str]) -> Result<Options, ExitCode> {
        let mut options = Options { name, help, given: BTreeMap::new() };
        let mut words = env::args().skip(1);
        while let Some(word) = words.next() {
            if word == "--help" || word == "-h" {
                println!("{help}");
                return Err(ExitCode::SUCCESS);
            }
            if !known.contains(&word.as_str()) {
                return Err(options.bad(&format!("no option {word}")));
            }
            let Some(value) = words.next() else { return Err(options.bad(&format!("{word} wants a value"))) };
            options.given.insert(word, value);
        }
        Ok(options)
    }

    pub fn text(&self, option: &str) -> Option<&str> {
        self.given.get(option).map(String::as_str)
    }

    pub fn number(&self, option: &str, otherwise: u64) -> Result<u64, ExitCode> {
        match self.text(option) {
            None => Ok(otherwise),
            Some(value) => value.parse().map_err(|_| self.bad(&format!("{option} wants a number, not '{value}'"))),
        }
    }

    fn bad(&self, problem: &str) -> ExitCode {
        eprintln!("{}: {problem}\n{}", self.name, self.help);
        ExitCode::from(BAD_USAGE)
    }
}
