//! The lasting cells of a chip, and the page buffers of its writes.

/// Writes for cells of one page of 16 at most: bit i of `cells` says whether there is one for the page's cell i.
#[derive(Clone, Copy, Default)]
struct Writes {
    page: usize,
    cells: u16,
    values: [u8; 16],
}

impl Writes {
    fn set(&mut self, cell: usize, value: u8) {
        self.page = cell / 16 * 16;
        self.cells |= 1 << (cell % 16);
        self.values[cell % 16] = value;
    }

    fn is_empty(&self) -> bool {
        self.cells == 0
    }

    fn clear(&mut self) {
        self.cells = 0;
    }
}

/// All that a transfer stages lies in one page, and nothing is staged while a write is under way.
pub struct Eeprom<const N: usize> {
    bytes: [u8; N],
    staged: Writes,
    under_way: Writes,
}

impl<const N: usize> Eeprom<N> {
    pub fn new(bytes: [u8; N]) -> Self {
        Eeprom { bytes, staged: Writes::default(), under_way: Writes::default() }
    }

    pub fn byte(&self, cell: usize) -> u8 {
        self.bytes[cell]
    }

    pub fn busy(&self) -> bool {
        !self.under_way.is_empty()
    }

    pub fn stage(&mut self, cell: usize, value: u8) {
        self.staged.set(cell, value);
    }

    pub fn unstage(&mut self) {
        self.staged.clear();
    }

    /// At a STOP all that is staged comes under way, or is dropped.
    pub fn stop(&mut self, begins: bool) {
        if begins && !self.staged.is_empty() {
            self.under_way = self.staged;
        }
        self.staged.clear();
    }

    /// All that is under way is stored.
    pub fn finish(&mut self) {
        self.store(u16::MAX);
    }

    /// Stores the writes that the mask marks; the others are lost.
    pub fn cut(&mut self, mask: u16) {
        self.store(mask);
        self.staged.clear();
    }

    fn store(&mut self, mask: u16) {
        let Writes { page, cells, values } = self.under_way;
        for (i, value) in values.into_iter().enumerate() {
            if (cells & mask) >> i & 1 == 1 {
                self.bytes[page + i] = value;
            }
        }
        self.under_way.clear();
    }
}

/// The cell after this one in its page; after the last of the page comes its first.
pub fn next_in_page(cell: u8, page: u8) -> u8 {
    cell & !(page - 1) | (cell + 1) & (page - 1)
}
