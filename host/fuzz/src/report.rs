//! A difference in words.

use crate::hunt::Found;
use crate::sides;
use oracle::replay::differ;

/// What the last call of the script was, what either side said and where they
/// differ.
pub fn words(found: &Found) -> Result<String, String> {
    let difference = &found.difference;
    let (rust, archive) = match (&difference.rust, &difference.archive) {
        (Ok(rust), Ok(archive)) => (rust, archive),
        (rust, archive) => return Ok(panics(rust, "Rust") + &panics(archive, "archive")),
    };
    let agreed = agreed(found);
    let [rust, archive] = [rust, archive].map(|last| [&agreed[..], last].concat());
    let mut text = Vec::new();
    differ(&found.script()[..], &rust[..], &archive[..], &mut text)
        .map_err(|_| "the two transcripts cannot be told in words".to_string())?;
    Ok(String::from_utf8_lossy(&text).into_owned())
}

fn panics(told: &Result<Vec<u8>, String>, side: &str) -> String {
    match told {
        Ok(_) => format!("the {side} did not panic\n"),
        Err(words) => format!("the {side} panicked: {words}\n"),
    }
}

/// The transcript up to the last item, on which the sides agree.
fn agreed(found: &Found) -> Vec<u8> {
    let mut rust = sides::start().0;
    let items = &found.items[..found.difference.at];
    let calls = items.iter().filter_map(|item| rust.play(item));
    calls.flatten().collect()
}
