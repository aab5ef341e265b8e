//! Request 5: the check, fed with a file in lumps, beside both converters.

use crate::lumps::cut;
use crate::odd_checks;
use crate::store::Store;
use harness::CHECK_STORE;
use second::dice::Dice;
use second::make::sample;
use second::pairs;

/// Every so many files the odd ways are tried too, and every so many it is fed
/// byte by byte.
const ODD_WAYS: u64 = 100;
const SINGLE_BYTES: u64 = 1000;

/// So many bytes more than the document needs are ample.
const AMPLE: u64 = 64;

pub type Numbers = [u64; 8];

/// A file, and what its check is opened with.
#[derive(Clone, Copy)]
pub struct Case<'a> {
    pub file: &'a [u8],
    pub mode: u64,
    pub room: u64,
}

#[derive(Default)]
pub struct Tally {
    files: u64,
    lumps: u64,
    pub differences: u64,
    first: Option<String>,
}

impl Tally {
    /// The file of this seed, in the break mode of its sample.
    pub fn try_seed(&mut self, file: &[u8], mode: u64, seed: u64) {
        let mut dice = Dice::new(!seed);
        let name = || format!("seed {seed}");
        let case = self.try_cut(file, mode, &mut dice, name);
        if seed.is_multiple_of(ODD_WAYS) {
            let other = sample(seed + 1);
            let other = Case { file: &other.file, mode: other.mode, room: other.room as u64 };
            self.add(odd_checks::difference(case, other, &mut dice), name);
        }
        if seed.is_multiple_of(SINGLE_BYTES) {
            let bytes: Vec<&[u8]> = file.chunks(1).collect();
            self.try_lumps(case, &bytes, &mut dice, name);
        }
    }

    /// Every accent before every code, in either break mode.
    pub fn try_pairs(&mut self) {
        for (number, pair) in pairs::all().enumerate() {
            let mut dice = Dice::new(number as u64);
            let mode = dice.pick(&[1, 2]);
            self.try_cut(&pair.file(), mode, &mut dice, || format!("{pair:02X?}"));
        }
    }

    /// A file in a room of chance and in lumps of chance. Gives the case.
    pub fn try_cut<'a>(
        &mut self,
        file: &'a [u8],
        mode: u64,
        dice: &mut Dice,
        name: impl Fn() -> String,
    ) -> Case<'a> {
        self.files += 1;
        let case = Case { file, mode, room: dice.pick(&rooms(file, mode)) };
        self.try_lumps(case, &cut(file, dice), dice, name);
        case
    }

    /// A file in every room, in other lumps each time.
    pub fn try_rooms(&mut self, file: &[u8], mode: u64, dice: &mut Dice, name: impl Fn() -> String) {
        self.files += 1;
        let mut rooms = rooms(file, mode).to_vec();
        // A file that is refused needs none.
        rooms.dedup();
        for room in rooms {
            self.try_lumps(Case { file, mode, room }, &cut(file, dice), dice, &name);
        }
    }

    fn try_lumps(&mut self, case: Case, lumps: &[&[u8]], dice: &mut Dice, name: impl Fn() -> String) {
        self.lumps += lumps.len() as u64;
        self.add(difference(case, lumps, dice), name);
    }

    pub fn add(&mut self, difference: Option<String>, name: impl Fn() -> String) {
        let Some(difference) = difference else { return };
        self.differences += 1;
        self.first.get_or_insert_with(|| format!("{}, {difference}", name()));
    }

    pub fn print(&self) {
        if let Some(first) = &self.first {
            println!("first difference of the checks: {first}");
        }
        let Tally { files, lumps, differences, .. } = self;
        println!("checks: {files} files cut, {lumps} lumps fed, {differences} differences");
    }
}

/// Ample, exactly the document's length, one byte less, and none.
pub fn rooms(file: &[u8], mode: u64) -> [u64; 4] {
    let needed = second::answer(file, mode, u64::MAX).length;
    [needed + AMPLE, needed, needed.saturating_sub(1), 0]
}

/// Opens, feeds and closes; the difference from the converters if there is one.
pub fn difference(case: Case, lumps: &[&[u8]], dice: &mut Dice) -> Option<String> {
    let second = second::answer(case.file, case.mode, case.room).numbers();
    let proved = by_proved(case, second[2]);
    let mut store = Store::full_of(dice.byte(), CHECK_STORE, dice);
    store.open(case);
    store.feed(lumps);
    let check = store.close();
    if check == Some(second) && proved == second {
        return None;
    }
    let lengths: Vec<usize> = lumps.iter().map(|lump| lump.len()).take(20).collect();
    Some(format!(
        "{case}, in {} lumps, the first of {lengths:?}\n  \
         numbers: number place length subtitles comments continuations users spans\n  \
         proved check:     {check:?}\n  proved converter: {proved:?}\n  second converter: {second:?}",
        lumps.len()
    ))
}

/// The converter on the joined file with a buffer of `room` bytes; one that is
/// longer than the document by more than is ample does the same.
fn by_proved(case: Case, length: u64) -> Numbers {
    let mut out = vec![0; case.room.min(length + AMPLE) as usize];
    let mut numbers = [0; 8];
    harness::convert(case.file, case.mode, &mut out, &mut numbers);
    numbers
}

impl std::fmt::Display for Case<'_> {
    fn fmt(&self, to: &mut std::fmt::Formatter) -> std::fmt::Result {
        write!(to, "mode {}, file of {} bytes, room {}", self.mode, self.file.len(), self.room)
    }
}
