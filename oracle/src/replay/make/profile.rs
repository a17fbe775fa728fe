//! What the scripts of each profile hold.

use super::scenario::Scenario;

/// What a script is about: each thing comes once in so many items (0: never).
#[derive(Clone, Copy)]
pub struct Profile {
    /// Parts the random numbers of two profiles with the same seed.
    pub salt: u64,
    /// How many clients there are at a time: one of these.
    pub clients: &'static [usize],
    /// A request with something wrong, once in so many: one of these.
    pub noise: &'static [usize],
    pub image: usize,
    /// Of the images.
    pub spoilt_image: usize,
    pub border_image: usize,
    pub table: usize,
    /// Of the tables.
    pub spoilt_table: usize,
    pub area: usize,
    /// Lengths other than the usual ones.
    pub lengths: usize,
    /// Of the requests: commands outside the domain of comparison may come.
    pub strange: usize,
    /// Of the requests: any bytes.
    pub random: usize,
    /// A scenario instead of a step.
    pub scenario: usize,
    /// Each as often as its weight says.
    pub scenarios: &'static [(usize, Scenario)],
}

const ALONE: &[(usize, Scenario)] = &[
    (16, Scenario::AnyFrame),
    (4, Scenario::WholeUpload),
    (3, Scenario::Silence),
    (3, Scenario::ReadBack),
    (7, Scenario::Abort),
    (3, Scenario::OtherId),
];

const TOGETHER: &[(usize, Scenario)] = &[
    (4, Scenario::AnyFrame),
    (14, Scenario::WholeUpload),
    (3, Scenario::Silence),
    (1, Scenario::Crowd),
    (3, Scenario::ReadBack),
    (4, Scenario::Abort),
];

const LENT: &[(usize, Scenario)] = &[
    (12, Scenario::AnyFrame),
    (2, Scenario::WholeUpload),
    (1, Scenario::Silence),
    (1, Scenario::ReadBack),
    (2, Scenario::Abort),
    (9, Scenario::Part),
    (4, Scenario::WholeDownload),
];

const STRANGE: &[(usize, Scenario)] = &[
    (8, Scenario::AnyFrame),
    (2, Scenario::WholeUpload),
    (1, Scenario::Silence),
    (1, Scenario::Crowd),
    (2, Scenario::ReadBack),
    (3, Scenario::Abort),
    (3, Scenario::Part),
    (2, Scenario::WholeDownload),
    (22, Scenario::OtherId),
];

pub const ONE: Profile = Profile {
    salt: 1,
    clients: &[1],
    noise: &[2, 3, 5, 9, 30],
    image: 40,
    spoilt_image: 0,
    border_image: 0,
    table: 0,
    spoilt_table: 0,
    area: 0,
    lengths: 0,
    strange: 40,
    random: 0,
    scenario: 5,
    scenarios: ALONE,
};

const SERIES: Profile = Profile {
    salt: 2,
    clients: &[2, 3, 6, 8, 9, 10, 10],
    spoilt_image: 40,
    scenarios: TOGETHER,
    ..ONE
};

const TABLES: Profile = Profile {
    salt: 3,
    clients: &[1, 3, 8, 10],
    noise: &[2, 3, 5, 9],
    spoilt_image: 30,
    table: 6,
    spoilt_table: 7,
    area: 30,
    lengths: 60,
    strange: 20,
    scenario: 3,
    scenarios: LENT,
    ..ONE
};

const IMAGES: Profile = Profile {
    salt: 4,
    clients: &[1, 2, 4],
    noise: &[4, 8, 30],
    image: 6,
    spoilt_image: 3,
    border_image: 60,
    scenario: 12,
    ..ONE
};

const WILD: Profile = Profile {
    salt: 5,
    clients: &[1, 2, 4, 8, 10],
    noise: &[1, 2, 3],
    image: 20,
    spoilt_image: 6,
    border_image: 60,
    table: 12,
    spoilt_table: 5,
    area: 40,
    lengths: 50,
    strange: 4,
    random: 6,
    scenario: 4,
    scenarios: STRANGE,
};

impl Profile {
    pub fn named(name: &str) -> Option<Self> {
        Some(match name {
            "one" => ONE,
            "series" => SERIES,
            "tables" => TABLES,
            "images" => IMAGES,
            "wild" => WILD,
            _ => return None,
        })
    }
}
