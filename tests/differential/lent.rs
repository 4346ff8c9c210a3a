//! Memory as it is lent to the port: dirty, and with entries before and after each list that no call may touch.
use crate::drawing::Random;

/// Entries before and after a list.
const GUARD: usize = 8;
/// What a list is filled with begins somewhere in the first of the dirty entries.
const STARTS: usize = 4096;

/// Dirty entries, of which a part goes to each list.
pub struct Dirt<T> {
    random: Random,
    entries: Vec<T>,
}

impl<T> Dirt<T> {
    /// Enough for lists of so many entries. Half of the entries are below 4, as what the port keeps in its working memory.
    pub fn new(seed: u64, most: usize, entry: impl Fn(u64) -> T) -> Dirt<T> {
        let mut random = Random(seed);
        let mut draw = || {
            let number = random.next();
            entry(if number % 2 == 0 { (number >> 8) % 4 } else { number >> 8 })
        };
        let entries = (0..most + STARTS + 4 * GUARD).map(|_| draw()).collect();
        Dirt { random, entries }
    }
}

/// A list as it is lent, and as it was before the call.
#[derive(Default)]
pub struct Lent<T> {
    held: Vec<T>,
    before: Vec<T>,
    from: usize,
    count: usize,
}

impl<T: Copy + PartialEq> Lent<T> {
    /// Lends dirty room for so many entries.
    pub fn lend_room(&mut self, dirt: &mut Dirt<T>, count: usize) {
        self.from = GUARD + dirt.random.below(GUARD);
        self.count = count;
        let at = dirt.random.below(STARTS);
        self.before.clear();
        self.before.extend_from_slice(&dirt.entries[at..at + self.from + count + GUARD]);
        self.held.clone_from(&self.before);
    }

    /// Lends a copy of a list.
    pub fn lend(&mut self, dirt: &mut Dirt<T>, list: &[T]) {
        self.lend_room(dirt, list.len());
        self.before[self.from..self.from + self.count].copy_from_slice(list);
        self.held[self.from..self.from + self.count].copy_from_slice(list);
    }

    pub fn list(&self) -> &[T] {
        &self.held[self.from..self.from + self.count]
    }

    pub fn list_mut(&mut self) -> &mut [T] {
        &mut self.held[self.from..self.from + self.count]
    }

    /// Everything but so many entries at the list's front is as it was lent.
    pub fn is_kept_after(&self, written: usize) -> bool {
        let from = self.from + written.min(self.count);
        self.held[..self.from] == self.before[..self.from] && self.held[from..] == self.before[from..]
    }
}
