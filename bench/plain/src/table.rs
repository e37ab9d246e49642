//! A hash table with open addressing, from numbers other than 0. It is emptied often and never shrinks.

#[derive(Clone, Copy, Default)]
struct Slot<V> {
    /// 0 where the slot is free.
    key: u32,
    value: V,
}

#[derive(Default)]
pub struct Table<V> {
    slots: Vec<Slot<V>>,
    shift: u32,
}

impl<V: Copy + Default> Table<V> {
    /// Makes the table empty, with room for this many keys.
    pub fn clear(&mut self, room: usize) {
        let size = (2 * room).max(16).next_power_of_two();
        self.shift = 32 - size.trailing_zeros();
        self.slots.clear();
        self.slots.resize(size, Slot::default());
    }

    /// The slot that the key is in, or the free one that it would be put in.
    #[inline]
    fn seek(&self, key: u32) -> u32 {
        let mask = self.slots.len() - 1;
        let mut at = (key.wrapping_mul(0x9e37_79b1) >> self.shift) as usize;
        while self.slots[at].key != key && self.slots[at].key != 0 {
            at = (at + 1) & mask;
        }
        at as u32
    }

    /// The slot of the key, if it is in the table. It stays the same until the table is emptied.
    #[inline]
    pub fn find(&self, key: u32) -> Option<u32> {
        let at = self.seek(key);
        (self.slots[at as usize].key != 0).then_some(at)
    }

    /// The slot of the key, with a default value if it is new.
    #[inline]
    pub fn enter(&mut self, key: u32) -> u32 {
        let at = self.seek(key);
        self.slots[at as usize].key = key;
        at
    }

    #[inline]
    pub fn value(&mut self, slot: u32) -> &mut V {
        &mut self.slots[slot as usize].value
    }
}
