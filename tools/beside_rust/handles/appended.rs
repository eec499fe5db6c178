
// Appended by the comparison, which needs to see the private slots.
impl<H: Copy + Eq + Default> Table<H> {
    pub fn shot(&self) -> Vec<(u32, H)> {
        self.slots.iter().map(|slot| ({ slot.meta }, { slot.handle })).collect()
    }

    pub fn empty_all(&mut self) {
        for slot in self.slots.iter_mut() {
            slot.meta = EMPTY;
        }
        self.len = 0;
    }

    pub fn slot_count(&self) -> usize {
        self.slots.len()
    }

    pub fn slots_wanted(entries: usize) -> usize {
        Self::slots_for(entries)
    }
}
