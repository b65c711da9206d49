//! Names in sheet order, each as one number, and a table to find them by. They are kept as the sheet spells them and
//! compared with `A-Z` read as `a-z`.

use second::limits::NAME_BYTES;

/// Bytes of a name as it is spelled, the first lowest, with zeros past its end. No name has a byte zero.
#[derive(Clone, Copy, Debug)]
pub struct Name {
    pub bytes: u128,
    pub length: usize,
}

/// A one in the lowest bit of each byte.
const EACH_BYTE: u128 = u128::MAX / 0xff;

/// The highest bit of each byte. With a number added to the seven lower bits, it is set exactly where they are large
/// enough: so all bytes are compared with a bound at once.
const HIGH_BITS: u128 = EACH_BYTE << 7;

impl Name {
    /// The name that starts here and has this many bytes, of which there are 1 to 16.
    #[inline]
    pub fn at(text: &[u8], from: usize, length: usize) -> Name {
        let bytes = match text.get(from..from + NAME_BYTES) {
            Some(wide) => {
                let mask = u128::MAX >> (8 * (NAME_BYTES - length));
                u128::from_le_bytes(wide.try_into().expect("that many bytes were taken")) & mask
            }
            None => {
                let mut padded = [0; NAME_BYTES];
                padded[..length].copy_from_slice(&text[from..from + length]);
                u128::from_le_bytes(padded)
            }
        };
        Name { bytes, length }
    }

    /// The bytes with `A-Z` read as `a-z`, by which names are compared.
    #[inline]
    pub fn folded(self) -> u128 {
        let low = self.bytes & !HIGH_BITS;
        let from_a = low + (HIGH_BITS - u128::from(b'A') * EACH_BYTE);
        let past_z = low + (HIGH_BITS - u128::from(b'Z' + 1) * EACH_BYTE);
        let capital = from_a & !past_z & !self.bytes & HIGH_BITS;
        self.bytes | capital >> 2
    }
}

/// At most so many different names, found by a table of so many slots, which is a power of two above that.
#[derive(Clone, Debug)]
pub struct Names<const MOST: usize, const SLOTS: usize> {
    count: usize,
    byte_count: usize,
    bytes: [u128; MOST],
    lengths: [u8; MOST],
    /// The number of a name plus 1, or 0.
    slots: [u16; SLOTS],
}

impl<const MOST: usize, const SLOTS: usize> Names<MOST, SLOTS> {
    pub fn none() -> Self {
        Names { count: 0, byte_count: 0, bytes: [0; MOST], lengths: [0; MOST], slots: [0; SLOTS] }
    }

    pub fn clear(&mut self) {
        self.count = 0;
        self.byte_count = 0;
        self.slots.fill(0);
    }

    #[inline]
    pub fn count(&self) -> usize {
        self.count
    }

    /// Bytes of all names together.
    #[inline]
    pub fn byte_count(&self) -> usize {
        self.byte_count
    }

    #[inline]
    pub fn name(&self, index: usize) -> Name {
        Name { bytes: self.bytes[index], length: usize::from(self.lengths[index]) }
    }

    /// Adds a name behind the others, unless there are too many or it is there.
    #[inline]
    pub fn add(&mut self, name: Name) -> Option<()> {
        if self.count == MOST {
            return None;
        }
        let folded = name.folded();
        let mut slot = Self::first_slot(folded);
        while self.slots[slot] != 0 {
            if self.name(usize::from(self.slots[slot] - 1)).folded() == folded {
                return None;
            }
            slot = (slot + 1) % SLOTS;
        }
        self.bytes[self.count] = name.bytes;
        self.lengths[self.count] = name.length as u8;
        self.count += 1;
        self.byte_count += name.length;
        self.slots[slot] = self.count as u16;
        Some(())
    }

    /// The number of this name, spelled in any case.
    #[inline]
    pub fn find(&self, name: Name) -> Option<usize> {
        let folded = name.folded();
        let mut slot = Self::first_slot(folded);
        while self.slots[slot] != 0 {
            let index = usize::from(self.slots[slot] - 1);
            if self.name(index).folded() == folded {
                return Some(index);
            }
            slot = (slot + 1) % SLOTS;
        }
        None
    }

    #[inline]
    fn first_slot(folded: u128) -> usize {
        let mixed = (folded as u64) ^ ((folded >> 64) as u64).rotate_left(29);
        (mixed.wrapping_mul(0x9e37_79b9_7f4a_7c15) >> (64 - SLOTS.trailing_zeros())) as usize
    }
}
