//! Rows of words, as subtitles have them.

use second::characters::{composed, ACCENTS};
use second::dice::Dice;

#[rustfmt::skip]
const WORDS: &[&str] = &[
    "the", "of", "and", "to", "in", "is", "you", "that", "it", "he", "was", "for", "on", "are",
    "with", "as", "his", "they", "be", "at", "one", "have", "this", "from", "or", "had", "by",
    "but", "what", "some", "we", "can", "out", "other", "were", "all", "there", "when", "up", "use",
    "your", "how", "said", "an", "each", "she", "which", "do", "their", "time", "if", "will", "way",
    "about", "many", "then", "them", "would", "like", "so", "these", "her", "long", "make", "thing",
    "see", "him", "two", "has", "look", "more", "day", "could", "go", "come", "did", "number",
    "sound", "no", "most", "people", "my", "over", "know", "water", "than", "call", "first", "who",
    "may", "down", "side", "been", "now", "find", "any", "new", "work", "part", "take", "get",
    "place", "made", "live", "where", "after", "back", "little", "only", "round", "man", "year",
    "came", "show", "every", "good", "give", "our", "under", "name", "very", "through", "just",
    "form", "much", "great", "think", "say", "help", "low", "line", "before", "turn", "cause",
    "same", "mean", "differ", "move", "right", "boy", "old", "too", "does", "tell", "sentence",
    "set", "three", "want", "air", "well", "also", "play", "small", "end", "put", "home", "read",
    "hand", "port", "large", "spell", "add", "even", "land", "here", "must", "big", "high", "such",
    "follow", "act", "why", "ask", "men", "change", "went", "light", "kind", "off", "need", "house",
    "picture", "try", "us", "again", "animal", "point", "mother",
];

/// Letters that take an accent, and the codes of those they take.
const ACCENTED: [(u8, &[u8]); 7] = [
    (b'a', b"\xC1\xC2\xC3\xC8\xCA"),
    (b'c', b"\xCB\xCF"),
    (b'e', b"\xC1\xC2\xC3\xC8"),
    (b'i', b"\xC2\xC3\xC8"),
    (b'n', b"\xC4\xCF"),
    (b'o', b"\xC2\xC3\xC8"),
    (b'u', b"\xC1\xC2\xC3\xC8"),
];

/// A letter of every word has an accent: what becomes of both.
#[derive(PartialEq, Eq, Clone, Copy)]
pub enum Accents {
    /// One code point.
    Composed,
    /// The letter and a combining mark.
    Marks,
}

/// Double height and boxes around words, now and then in a colour; the words
/// and the blanks between them take 20 to 39 cells.
pub fn plain_row(dice: &mut Dice) -> Vec<u8> {
    boxed_words(dice, |dice, row| word(dice, row, 9))
}

/// The same with an accent in every word.
pub fn accented_row(dice: &mut Dice, accents: Accents) -> Vec<u8> {
    boxed_words(dice, |dice, row| accented_word(dice, row, accents))
}

/// `add` adds a word and gives its cells.
fn boxed_words(dice: &mut Dice, add: impl Fn(&mut Dice, &mut Vec<u8>) -> usize) -> Vec<u8> {
    let mut row = vec![0x0D];
    if dice.chance(15) {
        row.push(dice.pick(b"\x02\x03\x06"));
    }
    row.extend([0x0B, 0x0B]);
    let width = dice.between(20, 30);
    let mut cells = 0;
    while cells < width {
        if cells > 0 {
            row.push(if dice.chance(3) { 0x03 } else { b' ' });
        }
        cells += 1 + add(dice, &mut row);
    }
    row.extend([0x0A, 0x0A]);
    row
}

/// Words of open subtitles; now and then one or some of them in italics, and now
/// and then underlined.
pub fn open_row(dice: &mut Dice) -> Vec<u8> {
    let mut row = Vec::new();
    let width = dice.between(20, 30);
    let mut cells = 0;
    while cells < width {
        if cells > 0 {
            row.push(b' ');
        }
        if dice.chance(12) {
            row.push(dice.pick(b"\x80\x80\x81\x82\x83"));
        }
        cells += 1 + word(dice, &mut row, 9);
    }
    row
}

/// A colour code before every word, and before some a background.
pub fn colourful_row(dice: &mut Dice) -> Vec<u8> {
    let mut row = vec![0x0D];
    while row.len() < 42 {
        row.push(dice.byte_between(1, 7));
        if dice.chance(30) {
            row.extend([0x1D, dice.byte_between(0, 7)]);
        }
        word(dice, &mut row, 5);
    }
    row
}

/// A word of at most so many letters.
fn any_word(dice: &mut Dice, longest: usize) -> &'static str {
    let mut word = dice.pick(WORDS);
    while word.len() > longest {
        word = dice.pick(WORDS);
    }
    word
}

/// Adds a word of at most nine letters, one of them with an accent; gives its cells.
/// The dice fall as often for either sort of accents, so that the words are the same.
fn accented_word(dice: &mut Dice, row: &mut Vec<u8>, accents: Accents) -> usize {
    let word = any_word(dice, 9).as_bytes();
    // Every word has one of these.
    let places: Vec<usize> = (0..word.len()).filter(|&at| b"aceinouy".contains(&word[at])).collect();
    let at = dice.pick(&places);
    let accent = dice.pick(&accents_of(word[at], accents));
    row.extend(&word[..at]);
    row.push(accent);
    row.extend(&word[at..]);
    word.len()
}

/// The accents that make this of the letter.
fn accents_of(letter: u8, accents: Accents) -> Vec<u8> {
    let wanted = |accent: &u8| composed(*accent, letter).is_some() == (accents == Accents::Composed);
    ACCENTS.iter().map(|&(accent, _)| accent).filter(wanted).collect()
}

/// Adds a word of at most so many letters; gives its cells.
fn word(dice: &mut Dice, row: &mut Vec<u8>, longest: usize) -> usize {
    let word = any_word(dice, longest);
    for letter in word.bytes() {
        // About half of the letters can take one: 3 percent of all.
        let accents = ACCENTED.iter().find(|(plain, _)| *plain == letter);
        match accents {
            Some((_, accents)) if dice.chance(6) => row.extend([dice.pick(accents), letter]),
            _ => row.push(letter),
        }
    }
    word.len()
}

#[cfg(test)]
mod tests {
    use super::*;

    #[test]
    fn three_percent_of_the_letters_are_accented() {
        let mut dice = Dice::new(1);
        let (mut letters, mut accents) = (0, 0);
        for _ in 0..20_000 {
            let row = plain_row(&mut dice);
            letters += row.iter().filter(|code| code.is_ascii_alphabetic()).count();
            accents += row.iter().filter(|&&code| (0xC1..=0xCF).contains(&code)).count();
        }
        let percent = 100.0 * accents as f64 / letters as f64;
        assert!((2.7..3.3).contains(&percent), "{percent}");
    }

    /// Two rows and the row end have to fit into one text of 112 bytes.
    #[test]
    fn rows_are_short_enough() {
        let mut dice = Dice::new(2);
        for _ in 0..20_000 {
            assert!(plain_row(&mut dice).len() <= 55);
            assert!(colourful_row(&mut dice).len() <= 55);
            assert!(open_row(&mut dice).len() <= 55);
            assert!(accented_row(&mut dice, Accents::Composed).len() <= 55);
            assert!(accented_row(&mut dice, Accents::Marks).len() <= 55);
        }
    }

    /// Both films have the same words with accents on the same letters, one in every
    /// word, of the sort that is asked for.
    #[test]
    fn an_accent_in_every_word() {
        let (mut dice, mut same_dice) = (Dice::new(3), Dice::new(3));
        for _ in 0..2_000 {
            let letters = accented_row(&mut dice, Accents::Composed);
            let marks = accented_row(&mut same_dice, Accents::Marks);
            for (row, is_composed) in [(&letters, true), (&marks, false)] {
                for word in row.split(|&code| code <= b' ').filter(|word| !word.is_empty()) {
                    let accents: Vec<usize> = (0..word.len()).filter(|&at| word[at] >= 0xC1).collect();
                    assert_eq!(accents.len(), 1, "{word:02X?}");
                    let pair = &word[accents[0]..][..2];
                    assert_eq!(composed(pair[0], pair[1]).is_some(), is_composed, "{word:02X?}");
                }
            }
            let plain = |row: &[u8]| row.iter().map(|&code| code.min(0xC1)).collect::<Vec<u8>>();
            assert_eq!(plain(&letters), plain(&marks));
        }
    }
}
