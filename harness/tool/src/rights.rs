//! What a user may do on a till, in the words of a command line.

use lurdempos::{Right, Rights};

/// The word for all rights.
pub const ALL: &str = "all";

pub fn word(right: Right) -> &'static str {
    match right {
        Right::List => "list",
        Right::BackUp => "backup",
        Right::Restore => "restore",
        Right::Retire => "retire",
    }
}

/// The rights that a word names, if it names any.
pub fn named(word: &str) -> Option<Vec<Right>> {
    match word {
        ALL => Some(Right::ALL.to_vec()),
        _ => Right::ALL.into_iter().find(|&right| self::word(right) == word).map(|right| vec![right]),
    }
}

/// A letter for each right, in the same order, or a dash.
pub fn letters(rights: Rights) -> String {
    let letter = |right| match right {
        Right::List => 'l',
        Right::BackUp => 'b',
        Right::Restore => 'r',
        Right::Retire => 't',
    };
    Right::ALL.into_iter().map(|right| if rights.has(right) { letter(right) } else { '-' }).collect()
}

/// As the end of a sentence: what somebody may do.
pub fn shown(rights: Rights) -> String {
    let words: Vec<&str> = Right::ALL.into_iter().filter(|&right| rights.has(right)).map(word).collect();
    match words[..] {
        [] => "do nothing".into(),
        _ => words.join(", "),
    }
}
