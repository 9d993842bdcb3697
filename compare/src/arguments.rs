//! The words behind a command, for all programs of this package.

use std::collections::HashMap;
use std::env;
use std::process::ExitCode;

/// Runs a program on the words behind its name. It answers its exit status, or nothing where it does
/// not understand them.
pub fn run(usage: &str, program: impl FnOnce(&[&str]) -> Option<ExitCode>) -> ExitCode {
    let words: Vec<String> = env::args().skip(1).collect();
    let words: Vec<&str> = words.iter().map(String::as_str).collect();
    program(&words).unwrap_or_else(|| {
        eprintln!("{usage}");
        ExitCode::from(2)
    })
}

/// Options by their names: those that have a number, and those that stand alone, with 1.
pub struct Options<'a>(HashMap<&'a str, u64>);

impl<'a> Options<'a> {
    /// Nothing where a word is not the name of an option, or a number is missing.
    pub fn read(words: &[&'a str], with_number: &[&str], alone: &[&str]) -> Option<Options<'a>> {
        Options::read_with(words, with_number, alone, &[])
    }

    /// Likewise, with options that may have a number or go without, and then have this one.
    pub fn read_with(
        words: &[&'a str],
        with_number: &[&str],
        alone: &[&str],
        usual: &[(&str, u64)],
    ) -> Option<Options<'a>> {
        let mut options = HashMap::new();
        let mut words = words.iter().peekable();
        while let Some(&name) = words.next() {
            let usual = usual.iter().find(|(option, _)| *option == name);
            let number = if with_number.contains(&name) {
                words.next()?.parse().ok()?
            } else if alone.contains(&name) {
                1
            } else {
                let &(_, usual) = usual?;
                let given = words.next_if(|word| !word.starts_with("--"));
                given.map_or(Some(usual), |word| word.parse().ok())?
            };
            options.insert(name, number);
        }
        Some(Options(options))
    }

    /// The number of an option, where it is given.
    pub fn number(&self, name: &str) -> Option<u64> {
        self.0.get(name).copied()
    }

    /// Whether an option is given.
    pub fn has(&self, name: &str) -> bool {
        self.0.contains_key(name)
    }
}

#[cfg(test)]
mod tests {
    use super::*;

    #[test]
    fn options_are_read_by_name() {
        let read = |words: &[&'static str]| Options::read(words, &["--seed"], &["--suit"]);
        let options = read(&["--suit", "--seed", "7"]).unwrap();
        assert_eq!(options.number("--seed"), Some(7));
        assert!(options.has("--suit"));
        assert_eq!(read(&[]).unwrap().number("--seed"), None);
        assert!(read(&["--seed"]).is_none());
        assert!(read(&["--seed", "x"]).is_none());
        assert!(read(&["--other"]).is_none());
    }

    #[test]
    fn a_number_may_be_left_out() {
        let read = |words: &[&'static str]| {
            let options = Options::read_with(words, &[], &["--suit"], &[("--pairs", 5)])?;
            options.number("--pairs")
        };
        assert_eq!(read(&["--pairs", "7"]), Some(7));
        assert_eq!(read(&["--pairs"]), Some(5));
        assert_eq!(read(&["--pairs", "--suit"]), Some(5));
        assert_eq!(read(&["--pairs", "x"]), None);
    }
}
