//! Numbers of versions in words.

/// `version 3`, or `versions 1 to 3, 5`: those that follow each other stand together.
pub fn shown(numbers: &[u32]) -> String {
    let run = |run: &[u32]| match run {
        [first, .., last] => format!("{first} to {last}"),
        _ => run.iter().map(u32::to_string).collect(),
    };
    let runs: Vec<String> = numbers.chunk_by(|number, next| number + 1 == *next).map(run).collect();
    let versions = if numbers.len() == 1 { "version" } else { "versions" };
    format!("{versions} {}", runs.join(", "))
}

#[cfg(test)]
mod tests {
    use super::shown;

    #[test]
    fn numbers_with_gaps() {
        assert_eq!(shown(&[7]), "version 7");
        assert_eq!(shown(&[1, 2]), "versions 1 to 2");
        assert_eq!(shown(&[2, 4]), "versions 2, 4");
        assert_eq!(shown(&[1, 2, 3, 5, 8, 9, 65_535]), "versions 1 to 3, 5, 8 to 9, 65535");
    }
}
