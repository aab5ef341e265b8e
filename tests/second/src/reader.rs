//! The cells of a document's span, as request 4 has them.

use crate::characters::{is_mark, Character};

/// The cells of a span, of what stands between its tags: "in a document too, such
/// a mark and the character before it are one cell", whatever that is; "a mark that
/// opens its span or follows a mark is outside our profile": none.
pub fn cells(text: &str) -> Option<Vec<Character>> {
    let mut cells: Vec<Character> = Vec::new();
    for point in unescaped(text).chars() {
        if !is_mark(point) {
            cells.push(Character::plain(point));
            continue;
        }
        let before = cells.last_mut()?;
        if before.mark.is_some() {
            return None;
        }
        before.mark = Some(point);
    }
    Some(cells)
}

/// "a character, each of the three escapes below being one".
fn unescaped(text: &str) -> String {
    text.replace("&lt;", "<").replace("&gt;", ">").replace("&amp;", "&")
}

#[cfg(test)]
mod tests {
    use super::*;

    fn plain(first: char) -> Character {
        Character::plain(first)
    }

    fn marked(first: char, mark: char) -> Character {
        Character::marked(first, mark)
    }

    #[test]
    fn without_marks() {
        assert_eq!(cells(""), Some(vec![]));
        assert_eq!(cells("A \u{E9}"), Some(vec![plain('A'), plain(' '), plain('\u{E9}')]));
        assert_eq!(cells("&lt;&amp;&gt;"), Some(vec![plain('<'), plain('&'), plain('>')]));
        assert_eq!(cells("&amp;lt;").unwrap().len(), 4);
    }

    #[test]
    fn marks_after_characters() {
        assert_eq!(cells("AX\u{301}B"), Some(vec![plain('A'), marked('X', '\u{301}'), plain('B')]));
        assert_eq!(cells("\u{A0}\u{328}"), Some(vec![marked('\u{A0}', '\u{328}')]));
        // Whatever that character is: an escape, a composed letter, one that no
        // code of the Latin table gives.
        assert_eq!(cells("&amp;\u{30C}"), Some(vec![marked('&', '\u{30C}')]));
        assert_eq!(cells("\u{E9}\u{327}"), Some(vec![marked('\u{E9}', '\u{327}')]));
        assert_eq!(cells("\u{416}\u{306}"), Some(vec![marked('\u{416}', '\u{306}')]));
        assert_eq!(cells("\n\u{301}"), Some(vec![marked('\n', '\u{301}')]));
    }

    /// Cells are compared as they stand.
    #[test]
    fn no_normalisation() {
        assert_ne!(cells("e\u{301}"), cells("\u{E9}"));
        assert_eq!(cells("e\u{301}").unwrap().len(), 1);
    }

    #[test]
    fn space_and_mark() {
        let read = cells(" \u{301} ").unwrap();
        assert_eq!(read, [marked(' ', '\u{301}'), plain(' ')]);
        assert_ne!(read[0], Character::SPACE);
        assert_eq!(read[1], Character::SPACE);
        assert_ne!(read[0], marked('\u{A0}', '\u{301}'));
    }

    #[test]
    fn outside_the_profile() {
        // A mark that opens its span.
        assert_eq!(cells("\u{301}"), None);
        assert_eq!(cells("\u{327}A"), None);
        // A mark after a mark, the same or another.
        assert_eq!(cells("A\u{301}\u{301}"), None);
        assert_eq!(cells("AB\u{328}\u{300}C"), None);
        assert_eq!(cells(" \u{301}\u{302}"), None);
    }

    /// "Other combining code points are plain characters, each a cell of its own."
    #[test]
    fn other_combining_code_points() {
        assert_eq!(cells("\u{332}"), Some(vec![plain('\u{332}')]));
        assert_eq!(cells("A\u{311}\u{332}"), Some(vec![plain('A'), plain('\u{311}'), plain('\u{332}')]));
        assert_eq!(cells("A\u{301}\u{332}"), Some(vec![marked('A', '\u{301}'), plain('\u{332}')]));
        assert_eq!(cells("A\u{332}\u{301}"), Some(vec![plain('A'), marked('\u{332}', '\u{301}')]));
    }
}
