//! Sets of permissions, of roles and of users, a bit for each.

use second::limits::{PERMISSIONS, ROLES, USERS};

/// Bits of a word.
pub const WORD_BITS: usize = 64;

/// A set in so many words.
#[derive(Clone, Copy, Debug, PartialEq, Eq)]
pub struct Set<const WORDS: usize>([u64; WORDS]);

/// The permissions that a user holds, say.
pub type Permissions = Set<{ PERMISSIONS / WORD_BITS }>;

/// Roles, or classes that become roles.
pub type Roles = Set<{ ROLES / WORD_BITS }>;

/// The users who hold a permission, say.
pub type Users = Set<{ USERS / WORD_BITS }>;

impl<const WORDS: usize> Set<WORDS> {
    pub const NONE: Set<WORDS> = Set([0; WORDS]);

    /// The set of all numbers below this one.
    #[inline]
    pub fn below(end: usize) -> Set<WORDS> {
        Set(std::array::from_fn(|index| match end.saturating_sub(index * WORD_BITS) {
            0 => 0,
            few if few < WORD_BITS => !(u64::MAX << few),
            _ => u64::MAX,
        }))
    }

    #[inline]
    pub fn words(&self) -> &[u64; WORDS] {
        &self.0
    }

    /// The members whose numbers start at 64 times this one, as a word.
    #[inline]
    pub fn word_mut(&mut self, index: usize) -> &mut u64 {
        &mut self.0[index]
    }

    /// The set with this member alone.
    #[inline]
    pub fn only(member: usize) -> Set<WORDS> {
        let mut set = Set::NONE;
        set.add(member);
        set
    }

    #[inline]
    pub fn has(&self, member: usize) -> bool {
        self.0[member / WORD_BITS] >> (member % WORD_BITS) & 1 != 0
    }

    #[inline]
    pub fn add(&mut self, member: usize) {
        self.0[member / WORD_BITS] |= 1 << (member % WORD_BITS);
    }

    #[inline]
    pub fn remove(&mut self, member: usize) {
        self.0[member / WORD_BITS] &= !(1 << (member % WORD_BITS));
    }

    #[inline]
    pub fn and(self, other: Set<WORDS>) -> Set<WORDS> {
        self.merged(other, |own, its| own & its)
    }

    #[inline]
    pub fn or(self, other: Set<WORDS>) -> Set<WORDS> {
        self.merged(other, |own, its| own | its)
    }

    #[inline]
    pub fn minus(self, other: Set<WORDS>) -> Set<WORDS> {
        self.merged(other, |own, its| own & !its)
    }

    #[inline]
    pub fn xor(self, other: Set<WORDS>) -> Set<WORDS> {
        self.merged(other, |own, its| own ^ its)
    }

    #[inline]
    fn merged(self, other: Set<WORDS>, merge: impl Fn(u64, u64) -> u64) -> Set<WORDS> {
        Set(std::array::from_fn(|index| merge(self.0[index], other.0[index])))
    }

    /// The members for which the condition holds.
    #[inline(always)]
    pub fn only_those(self, condition: impl Fn(usize) -> bool) -> Set<WORDS> {
        Set(std::array::from_fn(|index| {
            let (mut word, mut kept) = (self.0[index], 0);
            while word != 0 {
                let place = word.trailing_zeros() as usize;
                kept |= u64::from(condition(index * WORD_BITS + place)) << place;
                word &= word - 1;
            }
            kept
        }))
    }

    #[inline]
    pub fn is_empty(self) -> bool {
        self.0.iter().fold(0, |all, word| all | word) == 0
    }

    #[inline]
    pub fn count(self) -> usize {
        self.count_below(WORDS)
    }

    /// How many members a set has whose numbers are below 64 times this one.
    #[inline]
    pub fn count_below(self, words: usize) -> usize {
        self.0[..words].iter().map(|word| word.count_ones() as usize).sum()
    }

    /// The lowest number that is no member, or one past the highest that there can be.
    #[inline]
    pub fn lowest_missing(self) -> usize {
        let mut missing = WORDS * WORD_BITS;
        for (index, word) in self.0.iter().enumerate().rev() {
            if *word != u64::MAX {
                missing = index * WORD_BITS + word.trailing_ones() as usize;
            }
        }
        missing
    }

    /// Whether the condition holds for one of the members, asked in rising order.
    #[inline(always)]
    pub fn any(self, mut condition: impl FnMut(usize) -> bool) -> bool {
        for (index, mut word) in self.0.into_iter().enumerate() {
            while word != 0 {
                if condition(index * WORD_BITS + word.trailing_zeros() as usize) {
                    return true;
                }
                word &= word - 1;
            }
        }
        false
    }

    /// The members in rising order.
    #[inline]
    pub fn iter(self) -> Members<WORDS> {
        Members { words: self.0, index: 0 }
    }
}

/// See `Set::iter`.
pub struct Members<const WORDS: usize> {
    words: [u64; WORDS],
    index: usize,
}

impl<const WORDS: usize> Iterator for Members<WORDS> {
    type Item = usize;

    #[inline]
    fn next(&mut self) -> Option<usize> {
        while self.index < WORDS {
            let word = self.words[self.index];
            if word != 0 {
                self.words[self.index] = word & (word - 1);
                return Some(self.index * WORD_BITS + word.trailing_zeros() as usize);
            }
            self.index += 1;
        }
        None
    }

    #[inline]
    fn fold<Value, Step: FnMut(Value, usize) -> Value>(self, start: Value, mut step: Step) -> Value {
        let mut value = start;
        for (index, mut word) in self.words.into_iter().enumerate() {
            while word != 0 {
                value = step(value, index * WORD_BITS + word.trailing_zeros() as usize);
                word &= word - 1;
            }
        }
        value
    }
}
