//! The word that a mistyped one was probably meant to be.

/// The closest of some words, if one is close: the mistyped word begins it, or
/// a few letters are wrong, left out, too many or changed places. Case does not
/// matter.
fn closest<'a>(word: &str, among: impl IntoIterator<Item = &'a str>) -> Option<&'a str> {
    let typed: Vec<char> = word.to_lowercase().chars().collect();
    let most = typed.len() / 3;
    let mut best: Option<(usize, &str)> = None;
    for candidate in among {
        let letters: Vec<char> = candidate.chars().collect();
        let begins = typed.len() >= 2 && letters.starts_with(&typed);
        let wrong = if begins {
            0
        } else {
            distance(&typed, &letters)
        };
        if wrong <= most && best.map_or(true, |(least, _)| wrong < least) {
            best = Some((wrong, candidate));
        }
    }
    best.map(|(_, candidate)| candidate)
}

/// The question that stands behind a complaint about a word, or nothing.
pub fn question<'a>(word: &str, among: impl IntoIterator<Item = &'a str>) -> String {
    closest(word, among).map_or(String::new(), |meant| format!(": did you mean '{meant}'?"))
}

/// How many letters are wrong, left out, too many, or changed places with their
/// neighbour. Words far longer than any of ours are not compared.
fn distance(a: &[char], b: &[char]) -> usize {
    if a.len().abs_diff(b.len()) > 3 {
        return usize::MAX;
    }
    let mut rows = vec![vec![0; b.len() + 1]; a.len() + 1];
    for i in 0..=a.len() {
        for j in 0..=b.len() {
            rows[i][j] = match (i, j) {
                (0, _) => j,
                (_, 0) => i,
                _ => {
                    let changed = rows[i - 1][j - 1] + usize::from(a[i - 1] != b[j - 1]);
                    let least = changed.min(rows[i - 1][j] + 1).min(rows[i][j - 1] + 1);
                    let swapped = i > 1 && j > 1 && a[i - 1] == b[j - 2] && a[i - 2] == b[j - 1];
                    if swapped {
                        least.min(rows[i - 2][j - 2] + 1)
                    } else {
                        least
                    }
                }
            };
        }
    }
    rows[a.len()][b.len()]
}

#[cfg(test)]
mod tests {
    use super::closest;

    const WORDS: [&str; 4] = ["check", "evaluate", "--budget", "relational"];

    #[test]
    fn close_words() {
        let meant = [
            ("evalute", "evaluate"),
            ("evaluaet", "evaluate"),
            ("eval", "evaluate"),
            ("Evaluate", "evaluate"),
            ("chekc", "check"),
            ("chec", "check"),
            ("--bugdet", "--budget"),
            ("RELATIONL", "relational"),
        ];
        for (typed, word) in meant {
            assert_eq!(closest(typed, WORDS), Some(word), "{typed}");
        }
    }

    #[test]
    fn words_that_are_not_close() {
        let long = "x".repeat(100_000);
        for typed in ["", "c", "solve", "--json", "42", long.as_str()] {
            assert_eq!(closest(typed, WORDS), None, "{typed:.20}");
        }
    }
}
