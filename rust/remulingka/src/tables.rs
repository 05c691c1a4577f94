//! Table values: initial weights and k', each band's own.

use crate::limits::TABLE_SLOTS;

/// The slot of k' among a band's slots.
const K_SLOT: usize = TABLE_SLOTS - 1;

/// The table values of an image, [`TABLE_SLOTS`] a band: those for weight components, from
/// the first, and then k'. Slots that the settings do not use are ignored when
/// packing, and zero after opening.
#[derive(Clone, Debug, PartialEq, Eq)]
pub struct Tables {
    slots: Vec<i32>,
}

impl Tables {
    /// Tables for `bands` bands, all zero.
    pub fn new(bands: usize) -> Tables {
        Tables {
            slots: vec![0; TABLE_SLOTS * bands],
        }
    }

    /// Tables from their slots; nothing unless these are [`TABLE_SLOTS`] for each band.
    pub fn from_slots(slots: Vec<i32>) -> Option<Tables> {
        slots
            .len()
            .is_multiple_of(TABLE_SLOTS)
            .then_some(Tables { slots })
    }

    /// All slots, band by band.
    pub fn slots(&self) -> &[i32] {
        &self.slots
    }

    /// All slots, for the reader to fill.
    pub(crate) fn slots_mut(&mut self) -> &mut [i32] {
        &mut self.slots
    }

    /// How many bands these tables are for.
    pub fn bands(&self) -> usize {
        self.slots.len() / TABLE_SLOTS
    }

    /// The weight slots of a band.
    ///
    /// # Panics
    /// If there is no such band.
    pub fn weights(&self, band: usize) -> &[i32] {
        &self.slots[TABLE_SLOTS * band..][..K_SLOT]
    }

    /// The weight slots of a band, to set them.
    ///
    /// # Panics
    /// If there is no such band.
    pub fn weights_mut(&mut self, band: usize) -> &mut [i32] {
        &mut self.slots[TABLE_SLOTS * band..][..K_SLOT]
    }

    /// The k' of a band.
    ///
    /// # Panics
    /// If there is no such band.
    pub fn k(&self, band: usize) -> i32 {
        self.slots[TABLE_SLOTS * band + K_SLOT]
    }

    /// Sets the k' of a band.
    ///
    /// # Panics
    /// If there is no such band.
    pub fn set_k(&mut self, band: usize, k: i32) {
        self.slots[TABLE_SLOTS * band + K_SLOT] = k;
    }
}
