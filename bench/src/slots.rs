//! Sets of slots.

/// A set of numbers 0 to 255.
#[derive(Clone, Copy, Debug, Default, PartialEq, Eq)]
pub struct Slots([u64; 4]);

impl Slots {
    pub fn contains(&self, slot: u8) -> bool {
        self.0[usize::from(slot) / 64] >> (slot % 64) & 1 == 1
    }

    pub fn insert(&mut self, slot: u8) {
        self.0[usize::from(slot) / 64] |= 1 << (slot % 64);
    }

    pub fn remove(&mut self, slot: u8) {
        self.0[usize::from(slot) / 64] &= !(1 << (slot % 64));
    }

    pub fn union(&self, other: &Slots) -> Slots {
        Slots(std::array::from_fn(|w| self.0[w] | other.0[w]))
    }

    pub fn is_disjoint(&self, other: &Slots) -> bool {
        self.0.iter().zip(&other.0).all(|(a, b)| a & b == 0)
    }

    pub fn is_empty(&self) -> bool {
        self.0 == [0; 4]
    }

    /// The least number that is not a member.
    pub fn lowest_outside(&self) -> Option<u8> {
        let word = self.0.iter().position(|w| *w != u64::MAX)?;
        Some((word * 64) as u8 + self.0[word].trailing_ones() as u8)
    }

    /// The least number below a limit that is not a member.
    pub fn lowest_outside_below(&self, limit: usize) -> Option<u8> {
        self.lowest_outside()
            .filter(|slot| usize::from(*slot) < limit)
    }

    /// The members, ascending.
    pub fn iter(&self) -> impl Iterator<Item = u8> + '_ {
        (0..=255).filter(|slot| self.contains(*slot))
    }
}
