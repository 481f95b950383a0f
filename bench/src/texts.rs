//! Specs and names as carriers write them, each fixed by its number.

/// What teams are called. The number of words is prime to that of the kinds of specs, so
/// that each kind meets each word.
const TEAMS: [&str; 7] = ["north", "south", "harbour", "rail", "customs", "cold-chain", "express"];

/// Texts that live as long as the program, for both sides to borrow.
pub type Texts = &'static [String];

pub fn leaked(texts: impl Iterator<Item = String>) -> Texts {
    Vec::leak(texts.collect())
}

/// The name of a team; no other number has it.
pub fn team(number: usize) -> String {
    format!("{}-{number}", TEAMS[number % TEAMS.len()])
}

/// An object id, its digits as if at random.
pub fn object_id(number: usize) -> String {
    let digits = (number as u128 + 1).wrapping_mul(0x9e37_79b9_7f4a_7c15_f39c_c060_5ced_c835);
    format!("{:08x}{digits:032x}", digits >> 96)
}

/// A spec for fetch: patterns for the most part; full and partial names, with and
/// without destination; object ids; negatives.
pub fn fetch_spec(number: usize) -> String {
    let team = team(number);
    match number % 20 {
        0..=5 => format!("+refs/heads/{team}/*:refs/remotes/hub/{team}/*"),
        6 => format!("refs/tags/{team}/*:refs/tags/{team}/*"),
        7 => format!("+refs/heads/*/{team}:refs/remotes/hub/*/{team}"),
        8 | 9 => format!("+refs/heads/{team}/topic-{number}:refs/remotes/hub/{team}/topic-{number}"),
        10 => format!("refs/heads/{team}/topic-{number}:{team}/topic-{number}"),
        11 => format!("refs/heads/{team}/topic-{number}"),
        12 => format!("{team}/topic-{number}"),
        13 => format!("v1.{number}:refs/tags/v1.{number}"),
        14 => format!("+HEAD:refs/remotes/hub/{team}/HEAD"),
        15 => object_id(number),
        16 => format!("+{}:refs/heads/pins/pin-{number}", object_id(number)),
        17 | 18 => format!("^refs/heads/{team}/tmp-*"),
        _ => format!("^refs/heads/{team}/wip"),
    }
}

/// A spec for push: branches for the most part; tags, deletions, revisions that are no
/// names, object ids; negatives.
pub fn push_spec(number: usize) -> String {
    let team = team(number);
    match number % 20 {
        0..=3 => format!("refs/heads/{team}/*:refs/heads/{team}/*"),
        4 => format!("+refs/heads/*/{team}:refs/heads/*/{team}"),
        5..=7 => format!("+refs/heads/{team}/topic-{number}:refs/heads/{team}/topic-{number}"),
        8 | 9 => format!("{team}/topic-{number}:{team}/topic-{number}"),
        10 | 11 => format!("{team}/topic-{number}"),
        12 => format!("refs/tags/v1.{number}"),
        13 => format!("HEAD:refs/for/{team}"),
        14 => format!("HEAD~{number}:refs/heads/{team}/main"),
        15 => format!("@:refs/heads/{team}/main"),
        16 | 17 => format!(":refs/heads/{team}/topic-{number}"),
        18 => format!("{}:refs/heads/pins/pin-{number}", object_id(number)),
        _ => format!("^refs/heads/{team}/tmp-*"),
    }
}
