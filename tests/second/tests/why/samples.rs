//! What holds of the reason of every sample.

use crate::set::{is_accent, Form, Set};
use crate::{reason, SAMPLES};
use second::make::{sample, Sample};
use second::{convert, explain, Answer, Explanation};

fn answer(file: &[u8], mode: u64, room: usize) -> Answer {
    convert(file, mode, &mut vec![0; room])
}

/// "Number and place are the converter's own, for every input"; "that byte, if
/// any".
#[test]
fn number_place_and_byte() {
    for seed in 0..SAMPLES / 4 {
        let sample = sample(seed);
        let needed = answer(&sample.file, sample.mode, 0).length as usize;
        for room in [sample.room, 0, needed, needed.saturating_sub(1), needed + 1] {
            let answer = answer(&sample.file, sample.mode, room);
            let reason = explain(&sample.file, sample.mode, room as u64);
            assert_eq!((reason.number, reason.block), (answer.number, answer.place), "seed {seed}");
            assert_eq!(reason.byte, sample.file.get(reason.offset as usize).copied());
            let length = sample.file.len() as u64;
            assert_eq!(reason.byte.is_none(), reason.offset == length);
            let open_set = reason.number == 7 && 1024 + 128 * reason.block == length;
            assert_eq!(reason.byte.is_none(), matches!(reason.number, 0 | 1 | 2 | 16) || open_set);
            if (8..=12).contains(&reason.number) {
                assert_eq!((reason.offset - 1024) / 128, reason.block);
            }
        }
    }
}

/// "The named rule fails at that place": a text that ends there is good in this
/// rule, and one that ends behind it is not. Only the converter is asked.
#[test]
fn a_text_is_good_up_to_the_byte() {
    let mut texts = [0; 3];
    for seed in 0..SAMPLES {
        let sample = sample(seed);
        let reason = reason(&sample);
        if !(13..=15).contains(&reason.number) {
            continue;
        }
        texts[reason.number as usize - 13] += 1;
        let set = Set::of(&sample.file, reason.block);
        let named = set.index_of(reason.offset as usize);
        let (good, bad) = both_sides(&sample, &set, reason, named);
        let breaks_the_rule = |length| {
            let answer = answer(&set.cut(&sample.file, length), sample.mode, 0);
            (answer.number, answer.place) == (reason.number, reason.block)
        };
        assert!(!breaks_the_rule(good), "seed {seed}");
        assert!(breaks_the_rule(bad), "seed {seed}");
    }
    assert!(texts.iter().all(|&texts| texts > 5_000), "{texts:?}");
}

/// The lengths of two texts: one without what is named, and one that ends with it.
fn both_sides(sample: &Sample, set: &Set, reason: Explanation, named: usize) -> (usize, usize) {
    let code = |at: usize| set.text.get(at).map(|&at| sample.file[at]);
    match reason.number {
        // A code, or an accent and what follows it.
        13 if is_accent(reason.byte.unwrap()) => (named, (named + 2).min(set.text.len())),
        13 | 14 => (named, named + 1),
        // A row without bytes, or a row: without the break before it.
        _ => {
            let break_length = Form::of(sample, set).break_length();
            if code(named) == Some(0x8A) {
                return (named, named + break_length);
            }
            let end = (named..).find(|&at| matches!(code(at), None | Some(0x8A))).unwrap();
            (named.saturating_sub(break_length), end)
        }
    }
}
