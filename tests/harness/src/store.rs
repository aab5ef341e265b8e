//! A check's store between guards.

use crate::checks::{Case, Numbers};
use second::dice::Dice;

/// So many bytes before and behind a store, and numbers behind an array: nobody
/// may touch them.
const GUARD: usize = 64;
const MARK: u8 = 0xA5;

/// What stands in an array before the call, and behind it.
pub const NUMBER_MARK: u64 = u64::from_ne_bytes([MARK; 8]);

pub struct Store {
    bytes: Vec<u8>,
    start: usize,
    length: usize,
}

impl Store {
    /// A store of so many bytes, all of them this one, at an address of chance.
    pub fn full_of(byte: u8, length: usize, dice: &mut Dice) -> Store {
        let start = GUARD + dice.below(16);
        let mut bytes = vec![MARK; start + length + GUARD];
        bytes[start..start + length].fill(byte);
        Store { bytes, start, length }
    }

    /// A store of so many bytes of chance.
    pub fn of_chance(length: usize, dice: &mut Dice) -> Store {
        let mut store = Store::full_of(0, length, dice);
        dice.fill(store.lent());
        store
    }

    /// The same bytes at another place.
    pub fn copy(&self, dice: &mut Dice) -> Store {
        let mut store = Store::full_of(0, self.length, dice);
        store.lent().copy_from_slice(self.bytes());
        store
    }

    pub fn bytes(&self) -> &[u8] {
        &self.bytes[self.start..self.start + self.length]
    }

    pub fn lent(&mut self) -> &mut [u8] {
        &mut self.bytes[self.start..self.start + self.length]
    }

    pub fn guards_hold(&self) -> bool {
        let (before, rest) = self.bytes.split_at(self.start);
        before.iter().chain(&rest[self.length..]).all(|&byte| byte == MARK)
    }

    pub fn open(&mut self, case: Case) {
        harness::check_open(self.lent(), case.mode, case.room);
    }

    pub fn feed(&mut self, lumps: &[&[u8]]) {
        lumps.iter().for_each(|lump| harness::check_feed(self.lent(), lump));
    }

    /// The eight numbers; none if another one is returned, or if anything around
    /// the store or behind the array is touched.
    pub fn close(&mut self) -> Option<Numbers> {
        let (returned, answer) = self.close_into(8)?;
        let numbers: Numbers = answer.try_into().ok()?;
        (self.guards_hold() && numbers[0] == returned).then_some(numbers)
    }

    /// Closes with an array of so many numbers: what is returned, and the array;
    /// none if anything behind it is touched.
    pub fn close_into(&mut self, length: usize) -> Option<(u64, Vec<u64>)> {
        let mut answer = vec![NUMBER_MARK; length + GUARD];
        let returned = harness::check_close(self.lent(), &mut answer[..length]);
        let behind = answer.split_off(length);
        behind.iter().all(|&number| number == NUMBER_MARK).then_some((returned, answer))
    }
}
