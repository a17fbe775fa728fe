//! The text of an image: an object a line, comments behind '#'.
//!
//! A line has index and sub (hexadecimal), the kind (fixed or variable, then
//! perhaps ,read-only), the capacity in bytes ('=': the value's length) and the
//! value: pairs of hexadecimal digits, text in quotes, or @FILE.

use formats::dictionary::{Entry, Unsound, MOST_CAPACITY, MOST_IMAGE};
use formats::object::Object;
use formats::{dictionary, file, hex};
use std::path::Path;

/// What is wrong with a text, and where; lines and columns count from 1.
#[derive(Debug, PartialEq, Eq)]
pub struct Fault {
    line: usize,
    column: usize,
    message: String,
}

impl Fault {
    /// The line for people, with the text's name.
    pub fn told(&self, text: &Path) -> String {
        let Fault {
            line,
            column,
            message,
        } = self;
        format!("{}:{line}:{column}: {message}", text.display())
    }
}

/// A fault within one line: its column from 0, and the message.
type InLine = (usize, String);

/// A word and the column that it begins at, from 0.
struct Word {
    column: usize,
    text: String,
}

/// The characters of a line, read from the left.
struct Reader {
    characters: Vec<char>,
    at: usize,
}

impl Reader {
    fn new(line: &str) -> Reader {
        Reader {
            characters: line.chars().collect(),
            at: 0,
        }
    }

    fn peek(&self) -> Option<char> {
        self.characters.get(self.at).copied()
    }

    fn next(&mut self) -> Option<char> {
        let found = self.peek()?;
        self.at += 1;
        Some(found)
    }

    fn take_while(&mut self, wanted: impl Fn(char) -> bool) -> String {
        let start = self.at;
        while self.peek().is_some_and(&wanted) {
            self.at += 1;
        }
        self.characters[start..self.at].iter().collect()
    }

    fn skip_blanks(&mut self) {
        self.take_while(char::is_whitespace);
    }

    /// Whether nothing but blanks and a comment is left.
    fn is_done(&mut self) -> bool {
        self.skip_blanks();
        matches!(self.peek(), None | Some('#'))
    }

    fn word(&mut self, expected: &str) -> Result<Word, InLine> {
        if self.is_done() {
            return Err((self.at, format!("expected {expected}, found nothing")));
        }
        let column = self.at;
        let text = self.take_while(|found| !found.is_whitespace() && found != '#');
        Ok(Word { column, text })
    }
}

impl Word {
    fn wrong(&self, expected: &str) -> InLine {
        let text = &self.text;
        (self.column, format!("expected {expected}, found '{text}'"))
    }
}

/// The entries of a text; files are looked for in this folder.
pub fn parse(bytes: &[u8], folder: &Path) -> Result<Vec<Entry>, Fault> {
    let mut entries: Vec<Entry> = Vec::new();
    for (number, line) in (1..).zip(bytes.split(|&byte| byte == b'\n')) {
        let at = |(column, message): InLine| Fault {
            line: number,
            column: column + 1,
            message,
        };
        let line = text_of(line).map_err(at)?;
        let mut reader = Reader::new(line);
        if reader.is_done() {
            continue;
        }
        let entry = entry(&mut reader, &entries, folder).map_err(at)?;
        entries.push(entry);
    }
    Ok(entries)
}

fn text_of(line: &[u8]) -> Result<&str, InLine> {
    std::str::from_utf8(line).map_err(|error| {
        let good = String::from_utf8_lossy(&line[..error.valid_up_to()]);
        (good.chars().count(), "expected UTF-8 text".to_string())
    })
}

fn entry(reader: &mut Reader, before: &[Entry], folder: &Path) -> Result<Entry, InLine> {
    let expected = "an index of one to four hexadecimal digits";
    let named = reader.word(expected)?;
    let index = u16::from_str_radix(&named.text, 16).map_err(|_| named.wrong(expected))?;
    let expected = "a sub-index of one or two hexadecimal digits";
    let word = reader.word(expected)?;
    let sub = u8::from_str_radix(&word.text, 16).map_err(|_| word.wrong(expected))?;
    let (variable, read_only) = kind(reader)?;
    let (column, capacity) = capacity(reader)?;
    let (value_column, value) = value(reader, folder)?;
    if !reader.is_done() {
        return Err((reader.at, "expected the end of the line".to_string()));
    }
    let length = u16::try_from(value.len()).unwrap_or(u16::MAX);
    let entry = Entry {
        object: Object { index, sub },
        variable,
        read_only,
        capacity: capacity.unwrap_or(length),
        value,
    };
    checked(entry, before).map_err(|unsound| {
        let column = match unsound {
            Unsound::Order { .. } => named.column,
            Unsound::TooLong { .. } | Unsound::NotFilled { .. } => value_column,
            _ => column,
        };
        (column, unsound.to_string())
    })
}

/// The entry, if the image is still sound with it.
fn checked(entry: Entry, before: &[Entry]) -> Result<Entry, Unsound> {
    entry.check(before.last().map(|before| before.object))?;
    let size = dictionary::image_size(before) + entry.size();
    if size > MOST_IMAGE {
        return Err(Unsound::TooLarge { size });
    }
    Ok(entry)
}

/// Variable and read-only.
fn kind(reader: &mut Reader) -> Result<(bool, bool), InLine> {
    let expected = "fixed, variable, fixed,read-only or variable,read-only";
    let word = reader.word(expected)?;
    match word.text.as_str() {
        "fixed" => Ok((false, false)),
        "fixed,read-only" => Ok((false, true)),
        "variable" => Ok((true, false)),
        "variable,read-only" => Ok((true, true)),
        _ => Err(word.wrong(expected)),
    }
}

/// None where it is to be the value's length.
fn capacity(reader: &mut Reader) -> Result<(usize, Option<u16>), InLine> {
    let expected = format!("a capacity of 1 to {MOST_CAPACITY} bytes, or =");
    let word = reader.word(&expected)?;
    if word.text == "=" {
        return Ok((word.column, None));
    }
    let capacity = word.text.parse().map_err(|_| word.wrong(&expected))?;
    Ok((word.column, Some(capacity)))
}

fn value(reader: &mut Reader, folder: &Path) -> Result<(usize, Vec<u8>), InLine> {
    let expected = "a value: hexadecimal digits, text in quotes or @FILE";
    if reader.is_done() {
        return Err((reader.at, format!("expected {expected}, found nothing")));
    }
    let column = reader.at;
    let value = match reader.peek() {
        Some('"') => quoted(reader)?.into_bytes(),
        Some('@') => {
            reader.next();
            let name = match reader.peek() {
                Some('"') => quoted(reader)?,
                _ => reader.word("a file's name behind @")?.text,
            };
            file::read(&folder.join(name)).map_err(|message| (column, message))?
        }
        _ => {
            let digits = reader.take_while(|found| found != '#');
            hex::parse(&digits).map_err(|error| (column + error.at(), error.to_string()))?
        }
    };
    Ok((column, value))
}

/// Text in quotes; \" and \\ stand for a quote and a backslash.
fn quoted(reader: &mut Reader) -> Result<String, InLine> {
    let start = reader.at;
    reader.next();
    let mut text = String::new();
    loop {
        match reader.next() {
            Some('"') => return Ok(text),
            Some('\\') => match reader.next() {
                Some(found @ ('"' | '\\')) => text.push(found),
                _ => return Err((reader.at - 1, "expected \" or \\ behind \\".to_string())),
            },
            Some(found) => text.push(found),
            None => {
                let message = "expected a closing quote before the line's end";
                return Err((start, message.to_string()));
            }
        }
    }
}

#[cfg(test)]
mod tests {
    use super::*;

    fn parsed(text: &str) -> Result<Vec<Entry>, Fault> {
        parse(text.as_bytes(), Path::new(""))
    }

    #[test]
    fn each_form_of_a_line() {
        let text = "# a comment\n\n1008 0 variable,read-only 16 \"Gear \\\"#7\\\"\" # behind\n\
                    1300 0 fixed 4 D0070000\n2000 1f variable = 01 02 03 # three\n\
                    2001 0 variable 5 \"\"\r\n";
        let entries = parsed(text).unwrap();
        let values: Vec<&[u8]> = entries.iter().map(|entry| &entry.value[..]).collect();
        assert_eq!(
            values,
            [b"Gear \"#7\"", &[0xD0, 7, 0, 0][..], &[1, 2, 3], b""]
        );
        let capacities: Vec<u16> = entries.iter().map(|entry| entry.capacity).collect();
        assert_eq!(capacities, [16, 4, 3, 5]);
        assert_eq!(entries[2].object.to_string(), "2000:1F");
        assert!(entries[0].read_only && entries[0].variable);
        assert!(!entries[1].read_only && !entries[1].variable);
    }

    #[test]
    fn errors_name_line_column_and_what_was_expected() {
        let many = "1 0 variable 8192 00\n".to_string();
        let lines: String = (1..9)
            .map(|at| many.replacen('1', &at.to_string(), 1))
            .collect();
        for (text, place, word) in [
            ("\n 1g00 0 fixed 1 00", (2, 2), "index"),
            ("10000 0 fixed 1 00", (1, 1), "index"),
            ("1000", (1, 5), "sub-index"),
            ("1000 100 fixed 1 00", (1, 6), "sub-index"),
            ("1000 0 fix 1 00", (1, 8), "variable,read-only"),
            ("1000 0 fixed x 00", (1, 14), "capacity"),
            ("1000 0 fixed # 00", (1, 14), "capacity"),
            ("1000 0 fixed 0 00", (1, 14), "1 to 8192"),
            ("1000 0 fixed 8193 00", (1, 14), "1 to 8192"),
            ("1000 0 fixed 1", (1, 15), "value"),
            ("1000 0 fixed 1 0", (1, 17), "second hexadecimal digit"),
            ("1000 0 fixed 1 00 zz", (1, 19), "found 'z'"),
            ("1000 0 fixed 2 00", (1, 16), "fills its capacity"),
            ("1000 0 variable 1 0000", (1, 19), "2 bytes"),
            ("1000 0 variable 9 \"abc", (1, 19), "closing quote"),
            ("1000 0 variable 9 \"a\\b\"", (1, 22), "behind"),
            ("1000 0 variable 9 \"a\" b", (1, 23), "end of the line"),
            ("1000 0 variable 9 @absent.bin", (1, 19), "absent.bin"),
            ("1000 0 fixed 1 00\n1000 0 fixed 1 00", (2, 1), "twice"),
            ("1001 0 fixed 1 00\n1000 0 fixed 1 00", (2, 1), "ascending"),
            (&lines, (8, 14), "at most 65536"),
        ] {
            let fault = parsed(text).unwrap_err();
            assert_eq!((fault.line, fault.column), place, "{text}: {fault:?}");
            assert!(fault.message.contains(word), "{text}: {}", fault.message);
        }
        let fault = parse(b"1000 0 \xFF", Path::new("")).unwrap_err();
        assert_eq!((fault.line, fault.column), (1, 8));
    }
}
