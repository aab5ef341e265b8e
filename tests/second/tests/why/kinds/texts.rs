//! The kinds of text faults: 13 to 15.

use super::Kinds;
use crate::set::{is_accent, is_open, Form, Set};
use second::characters;
use second::make::Sample;
use second::Explanation;

/// Where in its set the named byte stands.
fn count_places(kinds: &mut Kinds, sample: &Sample, reason: Explanation, set: &Set) {
    let mut count = |name, here| kinds.count(reason.number, name, here);
    let (file, offset) = (&sample.file, reason.offset as usize);
    let (block, blocks) = (set.block_of(offset), set.blocks.len());
    let last_byte = offset % 128 == 127;
    count("place: only block", blocks == 1);
    count("place: first block of several", blocks > 1 && block == 0);
    count("place: middle block", block > 0 && block + 1 < blocks);
    count("place: last block of several", blocks > 1 && block + 1 == blocks);
    count("place: first byte of a later text", block > 0 && offset % 128 == 16);
    count("place: last byte of a block", last_byte);
    count("place: last byte of a block, blocks behind", last_byte && block + 1 < blocks);
    let before_end = !last_byte && file[offset + 1] == 0x8F;
    count("place: last before 8Fh, blocks behind", before_end && block + 1 < blocks);
    count("place: behind a user block inside", set.user_between(set.blocks[0], offset));
    let hidden = |&block: &usize| {
        let text = &file[block + 16..block + 128];
        text.iter().position(|&code| code == 0x8F).map(|end| &text[end + 1..])
    };
    let mut hidden = set.blocks[..block].iter().filter_map(hidden).peekable();
    count("place: behind an 8Fh", hidden.peek().is_some());
    count("place: behind an 8Fh and a bad code", hidden.any(|text| text.contains(&0x7F)));
    count("place: in a later set", reason.block > 0);
}

pub fn codes(kinds: &mut Kinds, sample: &Sample, reason: Explanation) {
    let set = Set::of(&sample.file, reason.block);
    count_places(kinds, sample, reason, &set);
    let mut count = |name: &str, here| kinds.count(13, name, here);
    let (byte, offset) = (reason.byte.unwrap(), reason.offset as usize);
    let next = set.text.get(set.index_of(offset) + 1).copied();
    let accent = is_accent(byte);
    let lone = accent && next.is_none();
    for (display, here) in [("teletext", !is_open(sample)), ("open", is_open(sample))] {
        count(&format!("a code, {display}"), here && !accent);
        count(&format!("a pair, {display}"), here && accent && !lone);
        count(&format!("a lone accent at the end, {display}"), here && lone);
    }
    let blocks_behind = set.block_of(offset) + 1 < set.blocks.len();
    count("a lone accent at the end, blocks without text behind", lone && blocks_behind);
    let Some(next) = next.filter(|_| accent) else { return };
    let code = sample.file[next];
    let blocks = set.block_of(next) - set.block_of(offset);
    count("a pair in two blocks", blocks == 1);
    count("a pair in two blocks, the accent a last byte", blocks > 0 && offset % 128 == 127);
    count("a pair with a block without text between", blocks > 1);
    count("a pair with a user block between", set.user_between(offset, next));
    count("an accent before an accent", is_accent(code));
    let listed = accent && !matches!(byte, 0xC9 | 0xCC);
    let good = code.is_ascii_alphabetic() || code == 0x20;
    assert!(!listed || !good, "one of the thirteen is refused \"only before what is no letter and no 20h\"");
    count("an accent before a row end", code == 0x8A);
    count("an accent before a control", code < 0x20);
    count("an accent before a switch", (0x80..0x84).contains(&code));
    count("an accent before A0h", listed && code == 0xA0);
    count("an accent before a digit or a sign", listed && (0x21..0x40).contains(&code));
    let above = (0xA1..=0xFF).contains(&code) && !is_accent(code);
    count("an accent before a listed code above A0h", listed && above && characters::latin(code).is_some());
    let empty = (0xA0..=0xFF).contains(&code) && !is_accent(code) && characters::latin(code).is_none();
    count("an accent before a code not listed", empty || (0x84..0x8A).contains(&code));
    count("C9h or CCh before a letter", !listed && code.is_ascii_alphabetic());
    count("C9h or CCh before a space", !listed && code == 0x20);
}

pub fn heights(kinds: &mut Kinds, sample: &Sample, reason: Explanation) {
    let set = Set::of(&sample.file, reason.block);
    count_places(kinds, sample, reason, &set);
    let form = Form::of(sample, &set);
    let text = set.codes(sample);
    let (before, behind) = text.split_at(set.index_of(reason.offset as usize));
    let is_height = behind[0] == 0x0D;
    for mode in [1, 2] {
        misplaced(kinds, form, before, is_height && form.mode == mode, mode);
    }
    let mut count = |name: &str, here| kinds.count(14, name, here);
    let odd_behind = |from: usize| runs(&behind[from..]).any(|run| run.len() % 2 == 1);
    count("0Dh, then an odd run", is_height && form.break_length() == 2 && odd_behind(0));
    count("0Dh, then another", is_height && behind[1..].contains(&0x0D));
    let run = behind.iter().take_while(|&&code| code == 0x8A).count();
    count("run", run > 0);
    if run == 0 {
        return;
    }
    let (start, end) = (before.iter().all(|&code| code < 0x20), run == behind.len());
    for length in [1, 3, 5] {
        count(&format!("run of {length}, behind controls only"), run == length && start);
        count(&format!("run of {length}, in the middle"), run == length && !start && !end);
        count(&format!("run of {length}, at the end"), run == length && end);
    }
    count("run of 7 or more", run >= 7);
    let (first, last) = (set.text[before.len()], set.text[before.len() + run - 1]);
    let blocks = set.block_of(last) - set.block_of(first);
    count("run in two blocks", blocks == 1);
    count("run in three blocks or more", blocks > 1);
    count("run with a user block inside", set.user_between(first, last));
    count("run over the end of a full block", blocks > 0 && first % 128 == 127);
    count("run behind an even run", runs(before).next().is_some());
    count("run, then an odd run", odd_behind(run));
    let mut later_rows = behind[run..].split(|&code| code == 0x8A);
    let after_character = |row: &[u8]| row.iter().skip_while(|&&code| code < 0x20).any(|&code| code == 0x0D);
    count("run, then 0Dh after a character", later_rows.any(after_character));
}

/// A 0Dh behind this text.
fn misplaced(kinds: &mut Kinds, form: Form, before: &[u8], here: bool, mode: u64) {
    let mut count = |name, also| kinds.count(14, &format!("0Dh {name}, mode {mode}"), here && also);
    let first_row = !before.contains(&0x8A);
    let row = before.rsplit(|&code| code == 0x8A).next().unwrap();
    let after_character = row.iter().any(|&code| code >= 0x20);
    count("after a character, first row", first_row);
    count("after a character, later row, double", form.double && !first_row);
    count("in a later row, single", !form.double && !after_character);
    count("in a later row, single, after a character", !form.double && after_character);
    count("in a later row, single, first row empty", !form.double && before.first() == Some(&0x8A));
}

/// The runs of 8Ah.
fn runs(text: &[u8]) -> impl Iterator<Item = &[u8]> {
    text.split(|&code| code != 0x8A).filter(|run| !run.is_empty())
}

/// The kinds are counted for each form of text.
pub fn rows(kinds: &mut Kinds, sample: &Sample, reason: Explanation) {
    let set = Set::of(&sample.file, reason.block);
    count_places(kinds, sample, reason, &set);
    let form = Form::of(sample, &set);
    Form::ALL.iter().for_each(|other| kinds.count(15, &other.name(), form == *other));
    let mut count = |name: &str, here| kinds.count(15, &format!("{}: {name}", form.name()), here);
    let rows = set.rows(sample, form);
    let position = sample.file[set.blocks[0] + 13];
    let lines = form.end(sample) - position;
    let fit = usize::from(lines) / form.height();
    let long: Vec<usize> = (0..rows.len()).filter(|&row| cells(sample, &rows[row]) > 64).collect();
    let number = long.first().map_or(fit, |&row| row.min(fit));
    let (before, behind) = (&rows[..number], &rows[number + 1..]);
    let (is_long, past) = (long.contains(&number), number == fit);
    let empty_before = before.last().is_some_and(Vec::is_empty);
    count("too long", is_long && !past);
    count("too long, the first row", is_long && number == 0);
    count("too long, the last row", is_long && number > 0 && behind.is_empty());
    count("too long, behind an empty row", is_long && empty_before);
    count("too long and past", is_long && past);
    count("too long, then one past", is_long && !past && rows.len() > fit);
    count("past, then too long", past && !is_long && !long.is_empty());
    count("past, with bytes", past && !rows[number].is_empty());
    count("past, with bytes, behind an empty row", past && !rows[number].is_empty() && empty_before);
    count("past, one row", past && behind.is_empty());
    count("past, several rows", past && behind.len() > 1);
    let empty = past && rows[number].is_empty();
    // A double text has a 0Dh in its first row.
    let leading = before.iter().skip(usize::from(form.double)).all(Vec::is_empty);
    count("past, empty, only empty ones before", empty && leading);
    count("past, empty, bytes behind", empty && behind.iter().any(|row| !row.is_empty()));
    count("past, empty, at the end", empty && behind.is_empty());
    count("past, empty, several", empty && behind.first().is_some_and(Vec::is_empty));
    count("past, empty, behind an empty row", empty && empty_before);
    if form.double {
        count("past, the first row", past && number == 0);
        count("past by one line of two", past && lines % 2 == 1);
        count("named by 0Dh", reason.byte == Some(0x0D));
    }
    if form.open {
        count("named by a switch", matches!(reason.byte, Some(0x80..=0x83)));
    }
    count("named by an accent", reason.byte.is_some_and(is_accent));
    if rows[number].is_empty() {
        empty_row(&mut count, &set, form, before);
    } else {
        row_with_bytes(&mut count, &set, &rows[number]);
    }
}

/// Rows over block ends and user blocks.
fn row_with_bytes(count: &mut impl FnMut(&str, bool), set: &Set, row: &[usize]) {
    let (first, last) = (row[0], row[row.len() - 1]);
    count("row in several blocks", set.block_of(first) < set.block_of(last));
    count("row around a user block", set.user_between(first, last));
    let before = set.index_of(first).checked_sub(1).map(|index| set.text[index]);
    let another_block = before.is_some_and(|before| set.block_of(before) < set.block_of(first));
    count("row in another block than its break", another_block);
    count("row behind a user block", before.is_some_and(|before| set.user_between(before, first)));
}

/// Breaks over block ends and user blocks.
fn empty_row(count: &mut impl FnMut(&str, bool), set: &Set, form: Form, before: &[Vec<usize>]) {
    let length = form.break_length();
    let start = before.iter().map(|row| row.len() + length).sum::<usize>() - length;
    let (first, last) = (set.text[start], set.text[start + length - 1]);
    if length == 2 {
        count("break in two blocks", set.block_of(first) < set.block_of(last));
        count("break around a user block", set.user_between(first, last));
        count("break over the end of a full block", first % 128 == 127 && last > first);
    }
    let next = set.text.get(start + length).copied();
    let another_block = next.is_some_and(|next| set.block_of(last) < set.block_of(next));
    count("empty row at a block's end", another_block);
    count("empty row around a user block", next.is_some_and(|next| set.user_between(last, next)));
}

fn cells(sample: &Sample, row: &[usize]) -> usize {
    let codes = row.iter().map(|&at| sample.file[at]);
    codes.filter(|&code| !is_accent(code) && !(0x80..0x84).contains(&code)).count()
}
