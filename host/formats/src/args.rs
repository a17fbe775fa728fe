//! The words of a command, taken one after the other.

use std::str::FromStr;
use std::vec::IntoIter;

pub struct Args {
    words: IntoIter<String>,
}

impl Args {
    /// The words behind the program's name.
    pub fn from_env() -> Result<Args, String> {
        let words: Result<Vec<String>, _> = std::env::args_os()
            .skip(1)
            .map(|word| word.into_string())
            .collect();
        match words {
            Ok(words) => Ok(Args::new(words)),
            Err(word) => Err(format!("{word:?} is no UTF-8")),
        }
    }

    pub fn new(words: Vec<String>) -> Args {
        Args {
            words: words.into_iter(),
        }
    }

    /// The value behind an option.
    pub fn value(&mut self, option: &str) -> Result<String, String> {
        self.next()
            .ok_or_else(|| format!("{option} needs a value behind it"))
    }

    /// The value behind an option, read as `what`.
    pub fn parsed<T: FromStr>(&mut self, option: &str, what: &str) -> Result<T, String> {
        let word = self.value(option)?;
        word.parse()
            .map_err(|_| format!("{option} needs {what}, not '{word}'"))
    }
}

impl Iterator for Args {
    type Item = String;

    fn next(&mut self) -> Option<String> {
        self.words.next()
    }
}

/// Numbers from 1 on with commas between them.
pub fn counts(text: &str) -> Option<Vec<u64>> {
    text.split(',')
        .map(|number| number.parse().ok().filter(|&number| number > 0))
        .collect()
}

#[cfg(test)]
mod tests {
    use super::*;

    #[test]
    fn options_and_their_values() {
        let words = ["--port", "70000", "--port"].map(String::from).to_vec();
        let mut args = Args::new(words);
        assert_eq!(args.next().as_deref(), Some("--port"));
        assert_eq!(
            args.parsed::<u16>("--port", "a port").unwrap_err(),
            "--port needs a port, not '70000'"
        );
        args.next();
        assert!(args.value("--port").unwrap_err().contains("needs a value"));
    }

    #[test]
    fn lists_of_counts() {
        assert_eq!(counts("3,14"), Some(vec![3, 14]));
        for wrong in ["", "0", "1,", "1;2", "-1"] {
            assert_eq!(counts(wrong), None, "{wrong}");
        }
    }
}
