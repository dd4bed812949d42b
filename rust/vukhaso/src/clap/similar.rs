//! Names that are like a word.

/// The name that is most like a word, if one is like it.
pub(super) fn most_similar<'a>(
    word: &str,
    names: impl Iterator<Item = &'a str>,
) -> Option<&'a str> {
    names
        .map(|name| (jaro(word.as_bytes(), name.as_bytes()), name))
        .filter(|(likeness, _)| *likeness > 0.7)
        .max_by(|one, other| one.0.total_cmp(&other.0))
        .map(|(_, name)| name)
}

/// How alike two words are by Jaro: from 0 to 1.
fn jaro(one: &[u8], other: &[u8]) -> f64 {
    if one.is_empty() || other.is_empty() {
        return if one == other { 1.0 } else { 0.0 };
    }
    let reach = (one.len().max(other.len()) / 2).saturating_sub(1);
    let mut taken = std::vec![false; other.len()];
    let mut matched = std::vec::Vec::new();
    for (at, byte) in one.iter().enumerate() {
        let end = other.len().min(at + reach + 1);
        let found = (at.saturating_sub(reach)..end).find(|&to| !taken[to] && other[to] == *byte);
        if let Some(to) = found {
            taken[to] = true;
            matched.push(*byte);
        }
    }
    if matched.is_empty() {
        return 0.0;
    }
    let others = other.iter().zip(&taken).filter(|(_, taken)| **taken);
    let moved = matched
        .iter()
        .zip(others)
        .filter(|(byte, (other, _))| byte != other)
        .count();
    let (count, moved) = (matched.len() as f64, (moved / 2) as f64);
    (count / one.len() as f64 + count / other.len() as f64 + (count - moved) / count) / 3.0
}

#[cfg(test)]
mod tests {
    use super::most_similar;

    #[test]
    fn names_are_found_that_are_like_a_word() {
        let names = || ["features", "font-size", "verify"].into_iter();
        assert_eq!(most_similar("feature", names()), Some("features"));
        assert_eq!(most_similar("verfy", names()), Some("verify"));
        assert_eq!(most_similar("quux", names()), None);
    }
}
