//! The absent bit_grid.rs, written from document 01's 'Corridors'.

use std::ops::Range;

pub type EmptyRanges = Vec<Range<u32>>;

/// Rows of cells, each empty or filled.
#[derive(Default, Debug)]
pub struct BitGrid {
    width: usize,
    filled: Vec<bool>,
}

impl BitGrid {
    pub fn reset(&mut self, width: u32, height: u32) {
        self.width = width as usize;
        self.filled.clear();
        self.filled.resize(self.width * height as usize, false);
    }

    /// Fills the cells from the least indices to before the greatest.
    pub fn fill_rect(&mut self, min_x: u32, min_y: u32, max_x: u32, max_y: u32) {
        for y in min_y as usize..max_y as usize {
            let row = y * self.width;
            self.filled[row + min_x as usize..row + max_x as usize].fill(true);
        }
    }

    /// The maximal empty runs of a row, left to right.
    pub fn find_empty_ranges(&self, y: u32) -> EmptyRanges {
        let row = &self.filled[y as usize * self.width..][..self.width];
        let mut ranges = EmptyRanges::new();
        let mut start = 0;
        for run in row.chunk_by(|a, b| a == b) {
            let end = start + run.len() as u32;
            if !run[0] {
                ranges.push(start..end);
            }
            start = end;
        }
        ranges
    }
}
