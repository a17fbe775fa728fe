//! The scripts that mutants are made of.

use formats::random::Random;
use formats::script::{self, Item};
use oracle::replay::{self, Profile};

/// The profiles of the oracle's generators.
const PROFILES: [&str; 5] = ["one", "series", "tables", "images", "wild"];

/// How many calls a made script has, and how many scripts are kept.
const LEAST_CALLS: u64 = 10;
const MOST_CALLS: u64 = 120;
const MOST_SCRIPTS: usize = 1_000;

/// How many made scripts of each profile there are at the start.
const FIRST: usize = 8;

pub struct Corpus {
    scripts: Vec<Vec<Item>>,
}

impl Corpus {
    /// Made scripts of every profile, and those given.
    pub fn new(random: &mut Random, given: Vec<Vec<Item>>) -> Corpus {
        let mut scripts = given;
        for profile in PROFILES {
            scripts.extend((0..FIRST).map(|_| made(random, profile)));
        }
        Corpus { scripts }
    }

    /// A script to be mutated: one that is kept, or now and then a new one.
    pub fn pick(&self, random: &mut Random) -> Vec<Item> {
        if random.below(4) == 0 {
            let profile = PROFILES[random.below(PROFILES.len() as u64) as usize];
            return made(random, profile);
        }
        self.any(random).to_vec()
    }

    pub fn any(&self, random: &mut Random) -> &[Item] {
        &self.scripts[random.below(self.scripts.len() as u64) as usize]
    }

    /// Keeps a script, in another's place if there are many.
    pub fn keep(&mut self, random: &mut Random, items: Vec<Item>) {
        if self.scripts.len() < MOST_SCRIPTS {
            self.scripts.push(items);
        } else {
            let place = random.below(MOST_SCRIPTS as u64) as usize;
            self.scripts[place] = items;
        }
    }

    pub fn size(&self) -> usize {
        self.scripts.len()
    }
}

fn made(random: &mut Random, name: &str) -> Vec<Item> {
    let profile = Profile::named(name).expect("a profile of the oracle");
    let calls = LEAST_CALLS + random.below(MOST_CALLS - LEAST_CALLS);
    let mut bytes = Vec::new();
    replay::script(random.below(u64::MAX), calls, profile, &mut bytes)
        .expect("a vector takes every byte");
    script::read(&bytes).0
}
