//! Request 4: pairs of every kind are met among the samples, at every place, in both
//! kinds of file.

use second::make::sample;
use second::{characters, explain};
use std::collections::BTreeMap;

#[path = "why/set.rs"]
#[allow(dead_code)]
mod set;

use set::{is_accent, is_open, Set};

const SAMPLES: u64 = 200_000;

/// A kind that comes less often counts as missing.
const RARE: u32 = 50;

const KINDS: [&str; 4] = ["a composed letter", "a letter and a mark", "U+00A0 and a mark", "refused"];

/// What becomes of an accent and the code after it, if there is one.
fn kind(accent: u8, next: Option<u8>) -> &'static str {
    let pair = next.and_then(|next| characters::accented(accent, next));
    match pair {
        None => KINDS[3],
        Some(pair) if pair.mark.is_none() => KINDS[0],
        Some(pair) if pair.first == '\u{A0}' => KINDS[2],
        Some(_) => KINDS[1],
    }
}

/// An accent of a set's text, and what stands around it.
struct Pair<'a> {
    file: &'a [u8],
    set: &'a Set,
    /// The place of the accent in the text.
    index: usize,
}

impl Pair<'_> {
    fn code(&self, index: usize) -> Option<u8> {
        self.set.text.get(index).map(|&at| self.file[at])
    }

    /// Whether it stands at each of the places.
    fn places(&self) -> Vec<(&'static str, bool)> {
        let Pair { set, index, .. } = *self;
        let accent = set.text[index];
        let next = set.text.get(index + 1).copied();
        let blocks = next.map_or(0, |next| set.block_of(next) - set.block_of(accent));
        let user = next.is_some_and(|next| set.user_between(accent, next));
        let last_byte = accent % 128 == 127;
        let first = index == 0 || self.code(index - 1) == Some(0x8A);
        // A refused pair can end its row by being an accent before 8Ah.
        let last = self.code(index + 2) == Some(0x8A) || self.code(index + 1) == Some(0x8A);
        vec![
            ("anywhere", true),
            ("first of its row", first),
            ("last of its row", last),
            ("last of its set", index + 2 >= set.text.len()),
            ("the whole text", set.text.len() <= 2),
            (
                "last of its set, its last byte the last of a block",
                index + 2 == set.text.len() && next.is_some_and(|next| next % 128 == 127),
            ),
            ("in two blocks", blocks == 1),
            ("in two blocks, the accent the last byte of the first", blocks == 1 && last_byte),
            ("in two blocks, a user block between", blocks == 1 && user),
            ("in two blocks, the accent a last byte, a user block between", blocks == 1 && last_byte && user),
            ("a block without text between", blocks > 1),
        ]
    }
}

/// The sets of subtitles of an accepted file, by their first block.
fn sets(file: &[u8]) -> Vec<u64> {
    let mut sets = Vec::new();
    let mut first = true;
    for (place, block) in file[1024..].chunks(128).enumerate().filter(|(_, block)| block[3] != 0xFE) {
        if first && block[15] == 0 {
            sets.push(place as u64);
        }
        first = block[3] == 0xFF;
    }
    sets
}

#[derive(Default)]
struct Met(BTreeMap<String, u32>);

impl Met {
    fn count(&mut self, name: String, here: bool) {
        *self.0.entry(name).or_default() += u32::from(here);
    }

    fn count_pair(&mut self, display: &str, pair: &Pair) {
        let accent = pair.file[pair.set.text[pair.index]];
        let kind = kind(accent, pair.code(pair.index + 1));
        for (place, here) in pair.places() {
            self.count(format!("{display}, {kind}: {place}"), here);
        }
    }

    /// Every pair of a text without faults, and its rows.
    fn count_good(&mut self, display: &str, file: &[u8], set: &Set) {
        let mut index = 0;
        while index < set.text.len() {
            if !is_accent(file[set.text[index]]) {
                index += 1;
                continue;
            }
            self.count_pair(display, &Pair { file, set, index });
            index += 2;
        }
        let codes: Vec<u8> = set.text.iter().map(|&at| file[at]).collect();
        for pair in [&b"\xC2 "[..], b"\xC2q"] {
            let row = pair.repeat(64);
            let full = codes.split(|&code| code == 0x8A).any(|codes| codes == row);
            self.count(format!("{display}: 64 times {pair:02X?}"), full);
        }
        for row in codes.split(|&code| code == 0x8A) {
            let accents = row.iter().filter(|&&code| is_accent(code)).count();
            self.count(format!("{display}: 64 pairs in a row"), accents == 64);
        }
    }
}

/// The kinds are printed: `cargo test every_kind_of_pair -- --nocapture`.
#[test]
fn every_kind_of_pair_is_met() {
    let mut met = Met::default();
    for seed in 0..SAMPLES {
        let sample = sample(seed);
        let reason = explain(&sample.file, sample.mode, u64::MAX);
        if !matches!(reason.number, 0 | 13) {
            continue;
        }
        let (file, display) = (&sample.file[..], if is_open(&sample) { "open" } else { "teletext" });
        if reason.number == 0 {
            for place in sets(file) {
                met.count_good(display, file, &Set::of(file, place));
            }
        } else if reason.byte.is_some_and(is_accent) {
            let set = Set::of(file, reason.block);
            let index = set.index_of(reason.offset as usize);
            met.count_pair(display, &Pair { file, set: &set, index });
            met.count(format!("{display}, refused: nothing follows"), index + 1 == set.text.len());
        }
    }
    for (name, count) in &met.0 {
        println!("{count:>7}  {name}");
    }
    for display in ["teletext", "open"] {
        for kind in KINDS {
            assert!(met.0.contains_key(&format!("{display}, {kind}: anywhere")));
        }
    }
    let missing: Vec<_> = met.0.iter().filter(|&(_, &count)| count < RARE).collect();
    assert!(missing.is_empty(), "{missing:#?}");
}
