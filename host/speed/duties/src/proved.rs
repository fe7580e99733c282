//! The proved library's function, over tables at the limits.

/// As many numbers as an answer has.
const NUMBERS: usize = 24;

/// Document 02's nodes, and a node's numbers in its table.
const NODES: usize = 1_024;
const NODE: usize = 2;

extern "C" {
    fn wagontulip_duties(text: *const u8, _: usize, nodes: *mut u32, _: usize, balance: *mut i32, _: usize, answer: *mut [u64; NUMBERS]);
}

/// What is lent.
pub struct Tables {
    pub nodes: Vec<u32>,
    pub balance: Vec<i32>,
}

impl Tables {
    pub fn at_the_limits() -> Tables {
        Tables { nodes: vec![0; NODES * NODE], balance: vec![0; NODES] }
    }

    /// The answer about a text.
    pub fn asked(&mut self, text: &[u8]) -> [u64; NUMBERS] {
        let Tables { nodes, balance } = self;
        let mut answer = [u64::MAX; NUMBERS];
        // Safe: each pointer goes with the length of its slice, and the tables are vectors of their own.
        unsafe {
            wagontulip_duties(text.as_ptr(), text.len(), nodes.as_mut_ptr(), nodes.len(), balance.as_mut_ptr(), balance.len(), &mut answer);
        }
        answer
    }
}
