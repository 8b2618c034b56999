//! The issue that a version word names, and the order of issues (02, K11).

/// An issue such as 3/- or 12/B. "Issues order by number, then hyphen before letters": the fields
/// stand in this order.
#[derive(Clone, Copy, Debug, PartialEq, Eq, PartialOrd, Ord)]
pub struct Issue {
    number: u8,
    revision: Revision,
}

#[derive(Clone, Copy, Debug, PartialEq, Eq, PartialOrd, Ord)]
enum Revision {
    Hyphen,
    Letter(u8),
}

impl Issue {
    /// Issue 3/-, the first one whose unsigned results trap.
    const FIRST_TO_TRAP: Issue = Issue { number: 3, revision: Revision::Hyphen };

    /// Reads the first word of a version table, "nn/x": a digit or space, a digit, "/", a hyphen or
    /// capital. None where the word is malformed, or the table empty.
    pub fn of_table(table: &[u8]) -> Option<Issue> {
        let &[tens, units, b'/', revision] = table.first_chunk()? else { return None };
        // "a leading space counts as 0"
        let tens = if tens == b' ' { 0 } else { digit(tens)? };
        let number = 10 * tens + digit(units)?;
        let revision = match revision {
            b'-' => Revision::Hyphen,
            b'A'..=b'Z' => Revision::Letter(revision),
            _ => return None,
        };
        Some(Issue { number, revision })
    }
}

/// Tells whether unsigned add, subtract and multiply wrap: "If the first version word is earlier than
/// issue 3/-, these three wrap; from 3/- on, or with no version table, trap 31 stays."
pub fn wraps(version: &[u8]) -> bool {
    Issue::of_table(version).is_some_and(|issue| issue < Issue::FIRST_TO_TRAP)
}

fn digit(character: u8) -> Option<u8> {
    character.is_ascii_digit().then(|| character - b'0')
}

#[cfg(test)]
mod tests {
    use super::{wraps, Issue};

    fn issue(word: &str) -> Option<Issue> {
        Issue::of_table(word.as_bytes())
    }

    #[test]
    fn issues_order_as_request_k11_says() {
        let rising = ["00/-", " 0/Z", " 2/-", "02/A", " 2/Z", "03/-", " 3/A", " 9/Z", "10/-"];
        let rising = rising.into_iter().chain(["12/B", "29/-", "99/Z"]).map(issue);
        assert!(rising.clone().all(|issue| issue.is_some()));
        assert!(rising.is_sorted_by(|one, next| one < next));
        assert_eq!(issue(" 3/A"), issue("03/A"));
    }

    #[test]
    fn issues_before_3_wrap() {
        for tens in b" 0123456789" {
            for units in b"0123456789" {
                for revision in b"-ABCDEFGHIJKLMNOPQRSTUVWXYZ" {
                    let old = matches!(tens, b' ' | b'0') && *units < b'3';
                    assert_eq!(wraps(&[*tens, *units, b'/', *revision]), old);
                }
            }
        }
        assert!(wraps(b" 2/Z 3/-") && !wraps(b" 3/- 2/Z") && !wraps(b""));
    }

    #[test]
    fn malformed_words_name_no_issue() {
        for word in ["", " 3/", "3/- ", "3 /-", "  /-", " 3/a", " 3/@", " 3/[", " 3--", "-3/-"] {
            assert_eq!(issue(word), None, "{word}");
        }
    }
}
