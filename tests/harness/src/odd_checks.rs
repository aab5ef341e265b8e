//! Request 5: the odd ways to use a check.

use crate::checks::{self, rooms, Case, Numbers};
use crate::lumps::cut;
use crate::store::{Store, NUMBER_MARK};
use harness::CHECK_STORE;
use second::dice::Dice;

/// Rooms that no buffer has.
const HUGE_ROOMS: [u64; 2] = [1 << 40, u64::MAX];

const MODES: [u64; 4] = [0, 1, 2, 3];

/// Arrays for the eight numbers, most of them too short or too long.
const ARRAYS: [usize; 5] = [0, 1, 7, 8, 9];

/// Lengths that no store has.
const OTHER_LENGTHS: [usize; 4] = [0, 1, CHECK_STORE - 1, CHECK_STORE + 1];

/// So many stores of each file get another byte.
const CHANGED_STORES: usize = 4;

/// "answered as one opened with break mode 0"
const NO_CHECK: Numbers = [1, 0, 0, 0, 0, 0, 0, 0];

/// True if all is as it must be.
type Way = fn(&Odd, &mut Dice) -> bool;

const WAYS: [(&str, Way); 11] = [
    ("fed and closed after the close", fed_after_the_close),
    ("arrays of other lengths", arrays),
    ("opened on old bytes", opened_on_old_bytes),
    ("stores of other lengths", stores_of_other_lengths),
    ("stores that were never opened", never_opened),
    ("lumps are only read", lumps_are_only_read),
    ("two checks in turn", two_in_turn),
    ("a store that is moved", moved),
    ("a store with a byte changed", changed),
    ("a store with its first number changed", changed_first),
    ("closed after every lump", closed_after_every_lump),
];

/// A file in lumps, its answer, and another file.
struct Odd<'a> {
    case: Case<'a>,
    lumps: Vec<&'a [u8]>,
    answer: Option<Numbers>,
    other: Case<'a>,
}

/// Tries all of them; the first that is not as it must be.
pub fn difference(case: Case, other: Case, dice: &mut Dice) -> Option<String> {
    if let Some(difference) = other_rooms_and_modes(case, dice) {
        return Some(difference);
    }
    let odd = Odd { case, lumps: cut(case.file, dice), answer: answer(case), other };
    let (name, _) = WAYS.iter().find(|(_, way)| !way(&odd, dice))?;
    Some(format!("{case}, not as it must be: {name}"))
}

fn other_rooms_and_modes(case: Case, dice: &mut Dice) -> Option<String> {
    let rooms = rooms(case.file, case.mode).into_iter().chain(HUGE_ROOMS);
    let cases = rooms.map(|room| Case { room, ..case }).chain(MODES.map(|mode| Case { mode, ..case }));
    cases.into_iter().find_map(|case| checks::difference(case, &cut(case.file, dice), dice))
}

/// What closing must give.
fn answer(case: Case) -> Option<Numbers> {
    Some(second::answer(case.file, case.mode, case.room).numbers())
}

/// A check that is opened and fed.
fn fed(case: Case, lumps: &[&[u8]], dice: &mut Dice) -> Store {
    let mut store = Store::of_chance(CHECK_STORE, dice);
    store.open(case);
    store.feed(lumps);
    store
}

fn fed_after_the_close(odd: &Odd, dice: &mut Dice) -> bool {
    let mut store = fed(odd.case, &odd.lumps, dice);
    let answer = store.close();
    let closed = store.bytes().to_vec();
    store.feed(&[b"", b"x", odd.case.file]);
    let fed_in_vain = store.bytes() == closed;
    let again = [store.close(), store.close()];
    store.feed(&odd.lumps);
    let at_last = store.close();
    answer == odd.answer
        && again == [answer, answer]
        && at_last == answer
        && fed_in_vain
        && store.bytes() == closed
}

/// "as many as there is room for"; what is behind them stays. The next close has
/// all of them.
fn arrays(odd: &Odd, dice: &mut Dice) -> bool {
    let Some(numbers) = odd.answer else { return false };
    ARRAYS.into_iter().all(|length| {
        let mut store = fed(odd.case, &odd.lumps, dice);
        let mut array = numbers.to_vec();
        array.resize(length, NUMBER_MARK);
        store.close_into(length) == Some((numbers[0], array)) && store.close() == odd.answer
    })
}

/// "open starts anew on any store of that length"
fn opened_on_old_bytes(odd: &Odd, dice: &mut Dice) -> bool {
    let other = cut(odd.other.file, dice);
    let half = fed(odd.other, &other[..other.len() / 2], dice);
    let mut closed = fed(odd.other, &other, dice);
    closed.close();
    let full_of = |byte, dice: &mut Dice| Store::full_of(byte, CHECK_STORE, dice);
    [full_of(0x00, dice), full_of(0xFF, dice), half, closed].into_iter().all(|mut store| {
        store.open(odd.case);
        store.feed(&odd.lumps);
        store.close() == odd.answer
    })
}

/// Bytes of chance, and the bytes of a check, of which some are missing or one is
/// added.
fn stores_of_other_lengths(odd: &Odd, dice: &mut Dice) -> bool {
    let check = fed(odd.case, &odd.lumps, dice);
    OTHER_LENGTHS.into_iter().all(|length| {
        let mut part = Store::full_of(0, length, dice);
        let shared = length.min(CHECK_STORE);
        part.lent()[..shared].copy_from_slice(&check.bytes()[..shared]);
        [part, Store::of_chance(length, dice)].into_iter().all(|mut store| {
            let before = store.bytes().to_vec();
            store.open(odd.case);
            store.bytes() == before && is_left_as_it_is(store, odd)
        })
    })
}

fn never_opened(odd: &Odd, dice: &mut Dice) -> bool {
    let stores = [
        Store::full_of(0x00, CHECK_STORE, dice),
        Store::full_of(0xFF, CHECK_STORE, dice),
        Store::of_chance(CHECK_STORE, dice),
    ];
    stores.into_iter().all(|store| is_left_as_it_is(store, odd))
}

/// Feeding and closing leave it, and it is answered as no check.
fn is_left_as_it_is(mut store: Store, odd: &Odd) -> bool {
    let before = store.bytes().to_vec();
    store.feed(&odd.lumps);
    store.feed(&[b"", odd.case.file]);
    let answer = store.close();
    answer == Some(NO_CHECK) && store.close() == answer && store.bytes() == before
}

fn lumps_are_only_read(odd: &Odd, dice: &mut Dice) -> bool {
    let lent = odd.case.file.to_vec();
    let lumps = cut(&lent, dice);
    fed(odd.case, &lumps, dice).close() == odd.answer && lent == odd.case.file
}

fn two_in_turn(odd: &Odd, dice: &mut Dice) -> bool {
    let others = cut(odd.other.file, dice);
    let (mut store, mut other) = (fed(odd.case, &[], dice), fed(odd.other, &[], dice));
    for turn in 0..odd.lumps.len().max(others.len()) {
        store.feed(turn_of(&odd.lumps, turn));
        other.feed(turn_of(&others, turn));
    }
    store.close() == odd.answer && other.close() == answer(odd.other)
}

/// The lump of this turn, if there is one left.
fn turn_of<'a, 'b>(lumps: &'b [&'a [u8]], turn: usize) -> &'b [&'a [u8]] {
    lumps.get(turn).map_or(&[], std::slice::from_ref)
}

/// What stood in the old place is gone.
fn moved(odd: &Odd, dice: &mut Dice) -> bool {
    let (before, behind) = odd.lumps.split_at(dice.between(0, odd.lumps.len()));
    let mut store = fed(odd.case, before, dice);
    let mut copy = store.copy(dice);
    dice.fill(store.lent());
    copy.feed(behind);
    copy.close() == odd.answer && store.guards_hold()
}

/// Any answer does, but there is one, and it is repeated.
fn changed(odd: &Odd, dice: &mut Dice) -> bool {
    (0..CHANGED_STORES).all(|_| {
        let (before, behind) = odd.lumps.split_at(dice.between(0, odd.lumps.len()));
        let mut store = fed(odd.case, before, dice);
        let place = place_to_change(store.bytes(), dice);
        store.lent()[place] ^= dice.byte_between(1, 255);
        store.feed(behind);
        let answer = store.close();
        answer.is_some() && store.close() == answer
    })
}

/// One byte of the number that tells a check: it is none any more.
fn changed_first(odd: &Odd, dice: &mut Dice) -> bool {
    let mut store = fed(odd.case, &odd.lumps, dice);
    store.lent()[dice.below(8)] ^= dice.byte_between(1, 255);
    is_left_as_it_is(store, odd)
}

/// Anywhere, or where something stands.
fn place_to_change(bytes: &[u8], dice: &mut Dice) -> usize {
    let anywhere = dice.below(bytes.len());
    if dice.chance(50) {
        return anywhere;
    }
    let filled: Vec<usize> = (0..bytes.len()).filter(|&at| bytes[at] != 0).collect();
    if filled.is_empty() {
        anywhere
    } else {
        dice.pick(&filled)
    }
}

/// Closing gives the answer on what was fed so far.
fn closed_after_every_lump(odd: &Odd, dice: &mut Dice) -> bool {
    let mut store = fed(odd.case, &[], dice);
    let mut fed = 0;
    odd.lumps.iter().all(|lump| {
        store.feed(&[lump]);
        fed += lump.len();
        let so_far = Case { file: &odd.case.file[..fed], ..odd.case };
        store.copy(dice).close() == answer(so_far)
    })
}
