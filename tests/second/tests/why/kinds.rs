//! How often each kind within a number comes among the samples: 0 to 12 and 16
//! here, 13 to 15 in `texts`.

mod texts;

use crate::set::is_open;
use crate::{reason, SAMPLES};
use second::make::{sample, Sample};
use second::Explanation;
use std::collections::BTreeMap;

/// A kind that comes less often counts as missing.
const RARE: u32 = 20;

/// How often each kind comes, by number. A kind that never comes stands here with
/// 0, because it is asked for in every file of its number.
#[derive(Default)]
pub struct Kinds(BTreeMap<(u64, String), u32>);

impl Kinds {
    pub fn count(&mut self, number: u64, name: &str, here: bool) {
        *self.0.entry((number, name.to_string())).or_default() += u32::from(here);
    }
}

/// The kinds are printed: `cargo test every_kind -- --nocapture`.
#[test]
fn every_kind_within_a_number_comes() {
    let mut kinds = Kinds::default();
    for seed in 0..SAMPLES {
        let sample = sample(seed);
        let reason = reason(&sample);
        (0..=16).for_each(|number| kinds.count(number, "all", reason.number == number));
        match reason.number {
            2 => sizes(&mut kinds, &sample),
            3..=5 => fields(&mut kinds, &sample, reason),
            6 => counts(&mut kinds, &sample, reason),
            7 => extensions(&mut kinds, &sample, reason),
            8..=10 => headers(&mut kinds, &sample, reason),
            11 => times(&mut kinds, &sample, reason),
            12 => positions(&mut kinds, &sample, reason),
            13 => texts::codes(&mut kinds, &sample, reason),
            14 => texts::heights(&mut kinds, &sample, reason),
            15 => texts::rows(&mut kinds, &sample, reason),
            16 => kinds.count(16, "no room at all", sample.room == 0),
            _ => {}
        }
    }
    for ((number, name), count) in &kinds.0 {
        println!("{number:>2} {count:>7}  {name}");
    }
    // A third of the files is accepted.
    assert!(3 * u64::from(kinds.0[&(0, "all".to_string())]) >= SAMPLES);
    let missing: Vec<_> = kinds.0.iter().filter(|&(_, &count)| count < RARE).collect();
    assert!(missing.is_empty(), "{missing:#?}");
}

fn sizes(kinds: &mut Kinds, sample: &Sample) {
    let mut count = |name, here| kinds.count(2, name, here);
    let length = sample.file.len();
    count("no bytes", length == 0);
    count("under 1,024 bytes", length < 1024);
    count("a rest of 128 k + 1", length > 1024 && length % 128 == 1);
    count("a rest of 128 k + 127", length > 1024 && length % 128 == 127);
}

/// A field is named by its first byte, also where that one is right.
fn fields(kinds: &mut Kinds, sample: &Sample, reason: Explanation) {
    let mut count = |name, here| kinds.count(reason.number, name, here);
    let byte = reason.byte.unwrap();
    match reason.number {
        3 => {
            count("its first byte is right", byte == b'S');
            count("its first byte is wrong", byte != b'S');
            count("only its last byte is wrong", &sample.file[3..10] == b"STL25.0");
        }
        4 => count("00h", byte == 0),
        _ => {
            count("its first byte is right", byte == b'0');
            count("its first byte is wrong", byte != b'0');
        }
    }
}

fn counts(kinds: &mut Kinds, sample: &Sample, reason: Explanation) {
    let mut count = |name, here| kinds.count(6, name, here);
    let (tnb, mnr) = (&sample.file[238..=242], &sample.file[253..=254]);
    let digits = |field: &[u8]| field.iter().all(u8::is_ascii_digit);
    let (open, bad_mnr) = (is_open(sample), !digits(mnr) || mnr == b"00");
    let named = reason.offset == 238;
    count("TNB, not digits", named && !digits(tnb));
    count("TNB, its first byte a digit", named && !digits(tnb) && digits(&tnb[..1]));
    count("TNB, another number", named && digits(tnb));
    count("TNB, not MNR", named && open && !bad_mnr);
    count("TNB and MNR", named && open && bad_mnr);
    count("TNB in teletext, a bad MNR not read", named && !open && bad_mnr);
    let named = reason.offset == 253;
    count("MNR 00", named && mnr == b"00");
    count("MNR, its first byte no digit", named && !digits(&mnr[..1]));
    count("MNR, only its second byte no digit", named && digits(&mnr[..1]) && !digits(mnr));
}

fn extensions(kinds: &mut Kinds, sample: &Sample, reason: Explanation) {
    let mut count = |name, here| kinds.count(7, name, here);
    let at = |place: usize| &sample.file[1024 + 128 * place..][..128];
    let place = reason.block as usize;
    let is_user = |place: &usize| at(*place)[3] == 0xFE;
    let users = (0..place).rev().take_while(is_user).count();
    let at_end = reason.byte.is_none();
    count("open at the end", at_end && users == 0);
    count("open at the end, a user block last", at_end && users == 1);
    count("open at the end, user blocks last", at_end && users > 1);
    // The set that is open, if one is: all blocks before this one are good.
    let latest = (0..place).rev().find(|place| !is_user(place)).filter(|&place| at(place)[3] != 0xFF);
    let byte = reason.byte.unwrap_or(0);
    let opening = !at_end && latest.is_none();
    count("EBN, opening, 01h to EFh", opening && byte < 0xF0);
    count("EBN, opening, F0h to FDh", opening && byte >= 0xF0);
    count("EBN, opening, after a set", opening && at(0)[3] == 0xFF);
    count("EBN, opening, after a user block", opening && users > 0);
    let inside = !at_end && latest.is_some();
    count("inside a set", inside);
    if inside {
        let latest = latest.unwrap();
        let first = (0..=latest).rev().find(|&place| at(place)[3] == 0).unwrap();
        let field = reason.offset as usize - 1024 - 128 * place;
        inside_a_set(&mut count, field, at(first), at(latest), at(place));
        count("inside, after a user block", users > 0);
        count("inside, after another set", at(0)[3] == 0xFF);
    }
}

/// The field named, the first and the latest block of the set, and this block.
fn inside_a_set(
    count: &mut impl FnMut(&'static str, bool),
    field: usize,
    first: &[u8],
    latest: &[u8],
    block: &[u8],
) {
    let differs = [0, 1, 2, 15].map(|at| block[at] != first[at]);
    let (ebn, wrong) = (block[3], field == 3);
    count("EBN inside, F0h to FDh", wrong && ebn >= 0xF0);
    count("EBN inside, F0h after EFh", wrong && ebn == 0xF0 && latest[3] == 0xEF);
    count("EBN inside, 00h", wrong && ebn == 0);
    count("EBN inside, a repeat", wrong && ebn == latest[3] && ebn > 0);
    count("EBN inside, a gap", wrong && ebn < 0xF0 && ebn > latest[3] + 1);
    count("EBN inside, nothing disagrees", wrong && differs == [false; 4]);
    count("EBN inside and SGN", wrong && differs[0]);
    count("EBN inside and SN", wrong && (differs[1] || differs[2]));
    count("EBN inside and CF", wrong && differs[3]);
    let only = |which| !wrong && differs == which;
    count("SGN", only([true, false, false, false]));
    count("SN, low byte", only([false, true, false, false]));
    count("SN, high byte", only([false, false, true, false]));
    count("SN, both bytes", only([false, true, true, false]));
    count("CF", only([false, false, false, true]));
    count("SGN and SN, low byte", only([true, true, false, false]));
    count("SGN and SN, high byte", only([true, false, true, false]));
    count("SGN and CF", only([true, false, false, true]));
    count("SN, low byte, and CF", only([false, true, false, true]));
    count("SN, high byte, and CF", only([false, false, true, true]));
    count("SGN, SN and CF", only([true; 4]));
    count("CF above 01h", field == 15 && block[15] > 1);
    count("disagreement in the block that closes the set", !wrong && ebn == 0xFF);
    count("disagreement in a block between", !wrong && ebn != 0xFF);
    count("EBN in a comment set", wrong && first[15] == 1);
    count("disagreement in a comment set", !wrong && first[15] == 1);
}

fn headers(kinds: &mut Kinds, sample: &Sample, reason: Explanation) {
    let number = reason.number;
    let mut count = |name, here| kinds.count(number, name, here);
    let block = &sample.file[1024 + 128 * reason.block as usize..][..128];
    // A first block has no SN before it.
    if number != 9 {
        count("in block 0", reason.block == 0);
    }
    count("in a later block", reason.block > 0);
    count("of several blocks", block[3] == 0);
    count("and a time out of range", block[5] > 23 || block[9] > 23);
    count("and JC", block[14] > 3);
    match number {
        8 => count("CF FFh", block[15] == 0xFF),
        9 => {
            count("a comment set", block[15] == 1);
            count("a low byte that is not 0", block[1] > 0);
        }
        _ => {}
    }
}

fn times(kinds: &mut Kinds, sample: &Sample, reason: Explanation) {
    let block = &sample.file[1024 + 128 * reason.block as usize..][..128];
    let rate = 10 * (sample.file[6] - b'0') + sample.file[7] - b'0';
    let limits = [24, 60, 60, rate, 24, 60, 60, rate];
    let out = |at: &usize| block[5 + at] >= limits[*at];
    let first = (0..8).find(out);
    let more = (0..8).filter(out).count() > 1;
    let named = reason.offset as usize - 1024 - 128 * reason.block as usize;
    let mut count = |name: &str, here| kinds.count(11, name, here);
    for (at, limit) in limits.into_iter().enumerate() {
        let (byte, here) = (5 + at, first == Some(at));
        count(&format!("byte {byte} out of range"), here && named == byte);
        count(&format!("byte {byte} on its limit"), here && block[byte] == limit);
        if at < 7 {
            count(&format!("byte {byte} out of range, and later ones"), here && more);
        }
    }
    let (time_in, time_out) = (&block[5..9], &block[9..13]);
    count("TCO equal to TCI", first.is_none() && time_out == time_in);
    count("TCO before TCI", first.is_none() && time_out < time_in);
    count(
        "TCO before TCI by frames only",
        first.is_none() && time_out[..3] == time_in[..3] && time_out != time_in,
    );
    count("TCO before TCI and out of range", named > 9 && time_out < time_in);
    count("frame 25 to 29 at 25", named == 12 && rate == 25 && (25..30).contains(&block[12]));
    count("frame 30 at 30", named == 12 && rate == 30 && block[12] == 30);
    count("in a later block", reason.block > 0);
}

fn positions(kinds: &mut Kinds, sample: &Sample, reason: Explanation) {
    let mut count = |name, here| kinds.count(12, name, here);
    let block = &sample.file[1024 + 128 * reason.block as usize..][..128];
    let (vp, jc) = (reason.offset % 128 == 13, block[14] > 3);
    let open = is_open(sample);
    count("VP 0 in teletext", !open && vp && block[13] == 0);
    count("VP 24 in teletext", !open && vp && block[13] == 24);
    count("VP in teletext, not JC", !open && vp && !jc);
    count("VP in open subtitles, not JC", open && vp && !jc);
    count("VP and JC in teletext", !open && vp && jc);
    count("VP and JC in open subtitles", open && vp && jc);
    count("JC in teletext", !open && !vp);
    count("JC in open subtitles", open && !vp);
    count("in a later block", reason.block > 0);
}
