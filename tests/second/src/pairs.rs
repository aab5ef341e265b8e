//! Every accent before every code, at every place, in both kinds of file: what is
//! compared before the files of chance. C0h, C9h and CCh are among the accents,
//! although nothing goes with them.

use crate::assemble::{file, open_file, tti, Tti};
use crate::characters::{accented, composed};

/// Where the pair stands.
#[derive(PartialEq, Eq, Debug, Clone, Copy)]
pub enum Place {
    /// There is no other text.
    Alone,
    MiddleOfRow,
    StartOfRow,
    EndOfRow,
    EndOfSet,
    /// A set follows whose text begins with a letter.
    BeforeSet,
    /// User data follows that begins with a letter.
    BeforeUserBlock,
    /// Its last byte is the last of a block without 8Fh.
    EndOfFullBlock,
    /// The accent is the last byte of a block's text, the code the first of the
    /// next.
    OverBlocks,
    OverFullBlock,
    OverEmptyBlock,
    OverUserBlock,
    OverFullBlockAndUserBlock,
}

impl Place {
    pub const ALL: [Place; 13] = [
        Place::Alone,
        Place::MiddleOfRow,
        Place::StartOfRow,
        Place::EndOfRow,
        Place::EndOfSet,
        Place::BeforeSet,
        Place::BeforeUserBlock,
        Place::EndOfFullBlock,
        Place::OverBlocks,
        Place::OverFullBlock,
        Place::OverEmptyBlock,
        Place::OverUserBlock,
        Place::OverFullBlockAndUserBlock,
    ];

    fn has_user_block(self) -> bool {
        matches!(self, Place::BeforeUserBlock | Place::OverUserBlock | Place::OverFullBlockAndUserBlock)
    }
}

/// What becomes of a pair.
#[derive(PartialEq, Eq, Debug, Clone, Copy)]
pub enum Kind {
    /// One code point.
    Composed,
    /// The letter and the mark.
    Letter,
    /// U+00A0 and the mark.
    Space,
    /// 13.
    Refused,
}

impl Kind {
    pub const ALL: [Kind; 4] = [Kind::Composed, Kind::Letter, Kind::Space, Kind::Refused];
}

/// An accent and what stands after it, in a file of one subtitle or two.
#[derive(Debug, Clone, Copy)]
pub struct Pair {
    pub open: bool,
    pub place: Place,
    pub accent: u8,
    /// Nothing at the end of the text.
    pub next: Option<u8>,
}

/// All of them.
pub fn all() -> impl Iterator<Item = Pair> {
    let nexts = || (0x00..=0xFF).map(Some).chain([None]);
    let accents = || 0xC0..=0xCF;
    let places = || Place::ALL.into_iter();
    [false, true].into_iter().flat_map(move |open| {
        places().flat_map(move |place| {
            accents().flat_map(move |accent| nexts().map(move |next| Pair { open, place, accent, next }))
        })
    })
}

impl Pair {
    pub fn kind(self) -> Kind {
        let Some(next) = self.next else { return Kind::Refused };
        match accented(self.accent, next) {
            None => Kind::Refused,
            Some(_) if next == b' ' => Kind::Space,
            Some(_) if composed(self.accent, next).is_some() => Kind::Composed,
            Some(_) => Kind::Letter,
        }
    }

    pub fn file(self) -> Vec<u8> {
        let blocks = self.blocks();
        if self.open {
            open_file(25, 24, &blocks)
        } else {
            file(25, &blocks)
        }
    }

    fn blocks(self) -> Vec<Tti> {
        let texts = self.texts();
        let last = texts.len() - 1;
        let ebn = |number| if number == last { 0xFF } else { number as u8 };
        let blocks = texts.into_iter().enumerate().map(|(number, text)| block(ebn(number), text));
        let mut blocks: Vec<Tti> = blocks.collect();
        if self.place.has_user_block() {
            blocks.insert(1, block(0xFE, b"e".to_vec()));
        }
        if self.place == Place::BeforeSet {
            blocks.push(Tti { sn: 2, ..block(0xFF, b"e".to_vec()) });
        }
        blocks
    }

    /// The text of each block of the set.
    fn texts(self) -> Vec<Vec<u8>> {
        let accent = [self.accent];
        let next: Vec<u8> = self.next.into_iter().collect();
        // Nothing follows if there is no code.
        let behind = |text: &[u8]| if next.is_empty() { vec![] } else { [&next[..], text].concat() };
        let one = |before: &[u8], after: &[u8]| vec![[before, &accent, &behind(after)].concat()];
        let two = |before: &[u8]| vec![[before, &accent].concat(), behind(b"B")];
        match self.place {
            Place::Alone => one(b"", b""),
            Place::MiddleOfRow => one(b"A", b"B"),
            Place::StartOfRow => one(b"A\x8A", b"B"),
            Place::EndOfRow => one(b"A", b"\x8AB"),
            Place::EndOfSet | Place::BeforeSet | Place::BeforeUserBlock => one(b"A", b""),
            Place::EndOfFullBlock => one(&filling(111 - next.len()), b""),
            Place::OverBlocks | Place::OverUserBlock => two(b"A"),
            Place::OverFullBlock | Place::OverFullBlockAndUserBlock => two(&filling(111)),
            Place::OverEmptyBlock => vec![[b"A", &accent[..]].concat(), vec![], behind(b"B")],
        }
    }
}

/// A block whose first byte, SGN, would do for a letter.
fn block(ebn: u8, text: Vec<u8>) -> Tti {
    Tti { sgn: b'a', ebn, vp: 20, ..tti(&text) }
}

/// So many bytes, in two rows.
fn filling(length: usize) -> Vec<u8> {
    (0..length).map(|at| if at == 55 { 0x8A } else { b'x' }).collect()
}

#[cfg(test)]
mod tests {
    use super::*;
    use crate::{convert, explain};
    use std::collections::BTreeMap;

    /// Of the numbers only 0 and 13 come, where they should; the reason names the
    /// accent.
    #[test]
    fn every_pair() {
        let mut kinds = BTreeMap::new();
        for pair in all() {
            let file = pair.file();
            let answer = convert(&file, 1, &mut [0; 4096]);
            let refused = pair.kind() == Kind::Refused;
            assert_eq!((answer.number, answer.place), (if refused { 13 } else { 0 }, 0), "{pair:02X?}");
            assert_eq!(explain(&file, 1, 4096).byte, refused.then_some(pair.accent), "{pair:02X?}");
            *kinds.entry(format!("{:?}", pair.kind())).or_insert(0) += 1;
        }
        let places = 2 * Place::ALL.len();
        assert_eq!(kinds["Composed"], places * 251);
        assert_eq!(kinds["Letter"], places * (13 * 52 - 251));
        assert_eq!(kinds["Space"], places * 13);
        assert_eq!(kinds.values().sum::<usize>(), places * 16 * 257);
    }

    /// Where the two bytes stand in the file, by place.
    #[test]
    fn both_bytes_have_their_place() {
        let second = |block: usize| 1024 + 128 * block + 16;
        for open in [false, true] {
            for place in Place::ALL {
                let (accent, next) = match place {
                    Place::Alone => (1040, 1041),
                    Place::MiddleOfRow | Place::EndOfRow | Place::EndOfSet => (1041, 1042),
                    Place::BeforeSet | Place::BeforeUserBlock => (1041, 1042),
                    Place::StartOfRow => (1042, 1043),
                    Place::EndOfFullBlock => (1150, 1151),
                    Place::OverBlocks => (1041, second(1)),
                    Place::OverFullBlock => (1151, second(1)),
                    Place::OverEmptyBlock | Place::OverUserBlock => (1041, second(2)),
                    Place::OverFullBlockAndUserBlock => (1151, second(2)),
                };
                let file = Pair { open, place, accent: 0xC8, next: Some(b'7') }.file();
                assert_eq!((file[accent], file[next]), (0xC8, b'7'), "{place:?}");
                assert_eq!(file[11], if open { b'0' } else { b'1' });
                assert_eq!(
                    file[1024 + 3..].iter().step_by(128).any(|&ebn| ebn == 0xFE),
                    place.has_user_block()
                );
            }
        }
        // A lone accent as the last byte of a block.
        let lone = Pair { open: false, place: Place::EndOfFullBlock, accent: 0xC8, next: None };
        assert_eq!(lone.file()[1151], 0xC8);
    }
}
