//! The files that are converted, made from a fixed seed.

use crate::words::{accented_row, colourful_row, open_row, plain_row, Accents};
use second::assemble::{file, open_file, time, tti, Tti};
use second::dice::Dice;

/// One file, accepted or refused in break mode 1.
pub struct Input {
    pub name: &'static str,
    pub file: Vec<u8>,
}

impl Input {
    pub fn blocks(&self) -> usize {
        (self.file.len() - 1024) / 128
    }
}

/// The two lengths between which the growth is measured.
pub const SHORTER: &str = "10,000 blocks";
pub const LARGEST: &str = "largest file";

const REFUSED: &str = "refused at its last block";

const SEED: u64 = 3264;

/// MNR of the open film.
const OPEN_ROWS: u8 = 24;

pub fn inputs() -> Vec<Input> {
    let mut dice = Dice::new(SEED);
    let film = film(&mut dice, 1500);
    vec![
        Input { name: "small file", file: file(25, &film[..5]) },
        Input { name: "feature film", file: file(25, &film) },
        Input { name: "film, accents", file: file(25, &accented_film(Accents::Composed, 1500)) },
        Input { name: "film, marks", file: file(25, &accented_film(Accents::Marks, 1500)) },
        Input { name: "colour changes", file: file(25, &colourful(&mut dice, 1500)) },
        Input { name: "open film", file: open_file(25, OPEN_ROWS, &open(&mut Dice::new(SEED), 1500)) },
        Input { name: REFUSED, file: file(25, &with_last_text(film, b"\x7F", b"")) },
        Input { name: SHORTER, file: file(25, &long(&mut dice, 10_000)) },
        Input { name: LARGEST, file: file(25, &long(&mut dice, 99_999)) },
    ]
}

/// Files of growing length.
pub fn growing() -> Vec<Input> {
    let of = |name, blocks| Input { name, file: file(25, &long(&mut Dice::new(SEED), blocks)) };
    vec![of("100 blocks", 100), of("1,000 blocks", 1000), of(SHORTER, 10_000)]
}

/// Films that are refused for a text fault in their last set.
pub fn refused() -> Vec<Input> {
    let good = film(&mut Dice::new(SEED), 1500);
    let film = |first: &[u8], second: &[u8]| file(25, &with_last_text(good.clone(), first, second));
    vec![
        Input { name: REFUSED, file: film(b"\x7F", b"") },
        // A pair over a block's end, 0Dh after a character, a row past the last
        // line.
        Input { name: "13 in the last set", file: film(b"\xC2", b"1") },
        Input { name: "14 in the last set", file: film(b"", b"A\x0D") },
        Input { name: "15 in the last set", file: film(b"", b"\x8A") },
    ]
}

/// The longest set there can be, refused for its last bytes.
pub fn longest_refused() -> Vec<Input> {
    let switches = |end: &[u8]| open_file(25, 1, &longest_set(0, 0x80, end));
    vec![
        Input { name: "13 in the longest set", file: switches(b"\x7F") },
        Input { name: "14 in the longest set", file: file(25, &longest_set(20, 0x01, b"A\x0D")) },
        Input { name: "15 in the longest set", file: switches(b"\x8A") },
    ]
}

/// Adds to the text of the last subtitle; the second text stands in a block of
/// its own.
fn with_last_text(mut film: Vec<Tti>, first: &[u8], second: &[u8]) -> Vec<Tti> {
    let Some(last) = film.last_mut() else { return film };
    last.text.extend(first);
    if !second.is_empty() {
        let closing = Tti { text: second.to_vec(), ..last.clone() };
        last.ebn = 0x00;
        film.push(closing);
    }
    film
}

/// 241 blocks full of one code, with this end.
fn longest_set(vp: u8, code: u8, end: &[u8]) -> Vec<Tti> {
    let ebns = (0x00..=0xEF).chain([0xFF]);
    let mut set: Vec<Tti> = ebns.map(|ebn| Tti { ebn, vp, ..tti(&[code; 112]) }).collect();
    if let Some(last) = set.last_mut() {
        let start = last.text.len() - end.len();
        last.text[start..].copy_from_slice(end);
    }
    set
}

/// Subtitles of two rows in double height, one block each.
fn film(dice: &mut Dice, subtitles: usize) -> Vec<Tti> {
    (0..subtitles).map(|number| subtitle(number, &[plain_row(dice), plain_row(dice)])).collect()
}

/// The same with an accent in every word; the letters are the same, whatever
/// becomes of them with their accents.
fn accented_film(accents: Accents, subtitles: usize) -> Vec<Tti> {
    let mut dice = Dice::new(SEED);
    let mut row = || accented_row(&mut dice, accents);
    (0..subtitles).map(|number| subtitle(number, &[row(), row()])).collect()
}

/// The same with a colour code before every word.
fn colourful(dice: &mut Dice, subtitles: usize) -> Vec<Tti> {
    (0..subtitles).map(|number| subtitle(number, &[colourful_row(dice), colourful_row(dice)])).collect()
}

/// Subtitles of two rows, of open subtitles.
fn open(dice: &mut Dice, subtitles: usize) -> Vec<Tti> {
    (0..subtitles).map(|number| subtitle(number, &[open_row(dice), open_row(dice)])).collect()
}

/// Very long files. SN has 16 bits, so 99,999 blocks cannot be as many sets: of
/// three sets two have an extension block. User blocks fill up the end.
fn long(dice: &mut Dice, blocks: usize) -> Vec<Tti> {
    let mut long = Vec::with_capacity(blocks);
    let mut number = 0;
    while long.len() + 5 <= blocks {
        for block_count in [1, 2, 2] {
            let whole = subtitle(number, &[plain_row(dice), plain_row(dice)]);
            number += 1;
            if block_count == 2 {
                let (first, rest) = whole.text.split_at(whole.text.len() / 2);
                long.push(Tti { ebn: 0x00, text: first.to_vec(), ..whole.clone() });
                long.push(Tti { text: rest.to_vec(), ..whole });
            } else {
                long.push(whole);
            }
        }
    }
    long.resize(blocks, Tti { ebn: 0xFE, ..tti(b"") });
    long
}

/// The subtitle of these rows, from line 20 on; one every 36 frames, so that
/// 60,000 have their place in a day.
fn subtitle(number: usize, rows: &[Vec<u8>; 2]) -> Tti {
    let first = 36 * number;
    Tti { sn: number as u16, tci: time(first, 25), tco: time(first + 30, 25), ..tti(&rows.join(&0x8A)) }
}
