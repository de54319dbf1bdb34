//! Cells lent to the port out of a row of marked ones, so that it shows what is
//! written behind an answer, outside the cells lent or under a refusal.

use std::fmt::Display;

/// Cells before and behind those lent, which must stay as well.
const GUARD: usize = 4;

#[derive(Default)]
pub struct Lent<T> {
    cells: Vec<T>,
    mark: T,
}

impl<T: Copy + PartialEq + Display> Lent<T> {
    /// So many cells, all marked.
    pub fn lend(&mut self, length: usize, mark: T) -> &mut [T] {
        self.cells.clear();
        self.cells.resize(length + 2 * GUARD, mark);
        self.mark = mark;
        &mut self.cells[GUARD..GUARD + length]
    }

    /// One cell, marked.
    pub fn lend_one(&mut self, mark: T) -> &mut T {
        &mut self.lend(1, mark)[0]
    }

    /// The one cell that was lent.
    pub fn one(&self) -> T {
        self.cells[GUARD]
    }

    /// So many of the cells that were lent.
    pub fn front(&self, length: usize) -> &[T] {
        &self.cells[GUARD..GUARD + length]
    }

    /// The first cell that is not as wanted: this answer at the front, and marks
    /// everywhere else.
    pub fn difference(&self, name: &str, answer: &[T]) -> Option<String> {
        let (before, cells) = self.cells.split_at(GUARD);
        let (front, behind) = cells.split_at(answer.len());
        if front == answer && self.marked(before) && self.marked(behind) {
            return None;
        }
        let marks = std::iter::repeat(&self.mark);
        let wanted = answer.iter().chain(marks.clone());
        let pairs = before.iter().zip(marks).chain(cells.iter().zip(wanted));
        let (at, (cell, wanted)) = pairs.enumerate().find(|(_, (a, b))| a != b)?;
        let at = at as i64 - GUARD as i64;
        Some(format!("{name}: cell {at} is {cell}, wanted {wanted}"))
    }

    /// Goes through all cells, which is quicker than to stop at the first.
    fn marked(&self, cells: &[T]) -> bool {
        let touched = |found: bool, cell: &T| found | (*cell != self.mark);
        !cells.iter().fold(false, touched)
    }
}
