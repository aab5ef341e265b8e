//! Rows of open subtitles: cells, and switches between them.

use super::accents::good_pair;
use super::text::good_character;
use crate::dice::Dice;

/// Italics on and off, underline on and off.
pub(super) const SWITCHES: &[u8] = b"\x80\x81\x82\x83";

/// Codes that make rows of many looks.
pub(super) const OPEN_SOUP: &[u8] = b"\x80\x81\x82\x83\x80\x81\x82\x83    ABab\xA0&";

/// Fewer cells to a switch, and most of them spaces.
pub(super) const THIN_OPEN_SOUP: &[u8] = b"\x80\x81\x82\x83   A";

/// A row of exactly so many cells; its switches take none.
pub(super) fn open_row(dice: &mut Dice, length: usize) -> Vec<u8> {
    let mut row = match dice.below(10) {
        0..=2 => words(dice, length),
        3 => spaces_at_the_ends(dice, length),
        flavour => (0..length).flat_map(|_| cell(dice, flavour)).collect(),
    };
    if dice.chance(30) {
        add_switches(dice, &mut row, 3);
    }
    row
}

/// Some switches, in some rows several next to one another, and one cell.
fn cell(dice: &mut Dice, flavour: usize) -> Vec<u8> {
    let mut codes = Vec::with_capacity(4);
    match flavour {
        4 | 5 => {
            add_switches(dice, &mut codes, 1);
            codes.push(dice.pick(b"    ABab\xA0&"));
        }
        6 => {
            add_switches(dice, &mut codes, 3);
            codes.push(dice.pick(b"  A"));
        }
        // Now and then a switch between characters of all sorts.
        7 => {
            if dice.chance(10) {
                add_switches(dice, &mut codes, 2);
            }
            codes.push(good_character(dice));
        }
        8 => {
            if dice.chance(20) {
                add_switches(dice, &mut codes, 2);
            }
            if dice.chance(50) {
                codes.extend(good_pair(dice));
            } else {
                codes.push(dice.pick(b"<>&'\" aeiou"));
            }
        }
        // Spaces only, which are blanks or not.
        _ => {
            if dice.chance(25) {
                add_switches(dice, &mut codes, 2);
            }
            codes.push(b' ');
        }
    }
    codes
}

/// Adds so many switches at most.
fn add_switches(dice: &mut Dice, codes: &mut Vec<u8>, most: usize) {
    for _ in 0..dice.between(0, most) {
        codes.push(dice.pick(SWITCHES));
    }
}

/// Words, some of them in italics or underlined, as files in use have them: off
/// before the space or after it, or only in a later row.
fn words(dice: &mut Dice, length: usize) -> Vec<u8> {
    let mut row = Vec::with_capacity(length + 8);
    let mut on = None;
    for cell in 0..length {
        let space = cell > 0 && dice.chance(20);
        if space && dice.chance(50) {
            row.extend(on.take());
        }
        row.push(if space { b' ' } else { dice.byte_between(b'a', b'z') });
        if space && dice.chance(50) {
            row.extend(on.take());
        }
        if (space || cell == 0) && on.is_none() && dice.chance(40) {
            let switch = dice.pick(&[0x80, 0x82]);
            row.push(switch);
            on = Some(switch + 1);
        }
    }
    if dice.chance(60) {
        row.extend(on);
    }
    row
}

/// Letters between spaces, of which some at either end are underlined, in
/// italics, or both.
fn spaces_at_the_ends(dice: &mut Dice, length: usize) -> Vec<u8> {
    let left = dice.between(0, 3.min(length));
    let right = dice.between(0, 3.min(length - left));
    let mut row = Vec::with_capacity(length + 8);
    let codes: [&[u8]; 8] = [b"\x82", b"\x82", b"\x80\x82", b"\x80", b"\x83", b"\x81\x83", b"\x81", b""];
    row.extend(dice.pick(&codes));
    for cell in 0..length {
        if cell == left || cell + right == length {
            row.extend(dice.pick(&codes));
        }
        let middle = cell >= left && cell + right < length;
        // Underlined or not in the middle, too.
        if middle && dice.chance(15) {
            row.push(dice.pick(SWITCHES));
        }
        row.push(if !middle || dice.chance(20) { b' ' } else { dice.byte_between(b'A', b'Z') });
    }
    row
}
