//! A hash table from keys to codes: open addressing, at most half full.

/// What a row is found by.
pub trait Key: Copy + Eq + Default {
    /// Well spread in the bits from 32 on.
    fn hash(self) -> u64;
}

/// An odd number near 2^64 over the golden ratio.
pub const MULTIPLIER: u64 = 0x9e37_79b9_7f4a_7c15;

const EMPTY: u32 = u32::MAX;

#[derive(Clone, Copy)]
struct Slot<K> {
    key: K,
    code: u32,
}

pub struct Slots<K> {
    /// As many as a power of two.
    slots: Vec<Slot<K>>,
    len: usize,
}

impl<K: Key> Slots<K> {
    pub fn new() -> Slots<K> {
        Slots::with_slots(64)
    }

    fn with_slots(count: usize) -> Slots<K> {
        let empty = Slot {
            key: K::default(),
            code: EMPTY,
        };
        Slots {
            slots: vec![empty; count],
            len: 0,
        }
    }

    /// The code of the key, or the slot where it belongs.
    #[inline]
    pub fn find(&self, key: K) -> Result<u16, usize> {
        let slots = self.slots.as_slice();
        let mask = slots.len() - 1;
        let mut at = (key.hash() >> 32) as usize & mask;
        loop {
            let slot = &slots[at];
            if slot.key == key && slot.code != EMPTY {
                return Ok(slot.code as u16);
            }
            if slot.code == EMPTY {
                return Err(at);
            }
            at = (at + 1) & mask;
        }
    }

    /// Puts the key into the slot that `find` gave.
    pub fn insert(&mut self, at: usize, key: K, code: u16) {
        self.slots[at] = Slot {
            key,
            code: u32::from(code),
        };
        self.len += 1;
        if self.len * 2 > self.slots.len() {
            self.grow();
        }
    }

    fn grow(&mut self) {
        let mut more = Slots::with_slots(2 * self.slots.len());
        for slot in self.slots.iter().filter(|slot| slot.code != EMPTY) {
            let Err(at) = more.find(slot.key) else {
                unreachable!("keys are distinct")
            };
            more.slots[at] = *slot;
        }
        more.len = self.len;
        *self = more;
    }
}

/// Fills the codes in front whose rows are known, and tells how many these are.
#[inline]
pub fn fill_known(codes: &mut [u16], known: impl Iterator<Item = Option<u16>>) -> usize {
    let mut count = 0;
    for (code, known) in codes.iter_mut().zip(known) {
        let Some(known) = known else { break };
        *code = known;
        count += 1;
    }
    count
}
