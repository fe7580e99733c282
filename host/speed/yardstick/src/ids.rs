//! Ids of a flat table in which an entry starts with its id.

/// Slots for twice as many rows as there may be.
const BITS: u32 = 16;

/// Rows by id, in open addressing; a slot holds a row and one, 0 where it is free. Empty until it is needed.
#[derive(Default)]
struct Slots(Vec<u32>);

impl Slots {
    /// The row with the id, or the slot where it would stand.
    #[inline(always)]
    fn find(&self, table: &[u32], width: usize, id: u32) -> Result<u32, usize> {
        let mask = self.0.len() - 1;
        let mut slot = (id.wrapping_mul(0x9e37_79b9) >> (32 - BITS)) as usize;
        loop {
            match self.0[slot] {
                0 => return Err(slot),
                row if table[(row as usize - 1) * width] == id => return Ok(row - 1),
                _ => slot = (slot + 1) & mask,
            }
        }
    }

    #[cold]
    fn fill(&mut self, table: &[u32], width: usize, rows: usize) {
        self.0 = vec![0; 1 << BITS];
        for row in 0..rows {
            if let Err(slot) = self.find(table, width, table[row * width]) {
                self.0[slot] = row as u32 + 1;
            }
        }
    }
}

/// The ids so far: one above all others is new; from the first that is not, all are looked up.
#[derive(Default)]
pub struct Seen {
    above: u32,
    slots: Slots,
}

impl Seen {
    /// Whether the id of row `rows` is new among those before; if so, its entry is to be written next.
    #[inline(always)]
    pub fn is_new(&mut self, table: &[u32], width: usize, rows: usize, id: u32) -> bool {
        if id >= self.above && self.slots.0.is_empty() {
            self.above = id + 1;
            return true;
        }
        self.is_new_out_of_order(table, width, rows, id)
    }

    #[inline(never)]
    fn is_new_out_of_order(&mut self, table: &[u32], width: usize, rows: usize, id: u32) -> bool {
        if self.slots.0.is_empty() {
            self.slots.fill(table, width, rows);
        }
        match self.slots.find(table, width, id) {
            Ok(_) => false,
            Err(slot) => {
                self.slots.0[slot] = rows as u32 + 1;
                true
            }
        }
    }
}

/// The rows of a table that is read.
pub struct Rows<'a> {
    table: &'a [u32],
    width: usize,
    slots: Slots,
}

impl<'a> Rows<'a> {
    pub fn new(table: &'a [u32], width: usize, rows: usize) -> Rows<'a> {
        Rows { table: &table[..rows * width], width, slots: Slots::default() }
    }

    /// The row with the id: files mostly number their rows from 1.
    #[inline(always)]
    pub fn of(&mut self, id: u32) -> Option<u32> {
        let guess = id.wrapping_sub(1);
        match self.table.get(guess as usize * self.width) {
            Some(found) if *found == id => Some(guess),
            _ => self.out_of_order(id),
        }
    }

    #[inline(never)]
    fn out_of_order(&mut self, id: u32) -> Option<u32> {
        if self.slots.0.is_empty() {
            self.slots.fill(self.table, self.width, self.table.len() / self.width);
        }
        self.slots.find(self.table, self.width, id).ok()
    }
}
