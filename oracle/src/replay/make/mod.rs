//! Makes scripts that follow the server: the Rust plays each item as it is
//! made, so that the next one can be what a client would send, or not quite.

mod bring;
mod command;
mod frame;
mod image;
mod maker;
mod profile;
mod sample;
mod scenario;
mod table;
mod tour;

use std::io::{self, Write};

use maker::Maker;

pub use image::{RETRIES, TIMEOUT};
pub use profile::Profile;
pub use sample::sample;

/// Writes a script of `count` calls. A smaller count gives a beginning of the
/// same script.
pub fn script(seed: u64, count: u64, profile: Profile, out: &mut impl Write) -> io::Result<()> {
    let mut maker = Maker::new(seed, count, profile, out);
    maker.start()?;
    while maker.left > 0 {
        maker.step()?;
    }
    Ok(())
}
