//! Memory for the library, with guard cells on both sides.

use std::fmt::Debug;

const GUARD: usize = 8;

#[derive(Clone)]
pub struct Guarded<T> {
    cells: Vec<T>,
    guard: T,
}

impl<T: Copy + PartialEq + Debug> Guarded<T> {
    pub fn new(content: &[T], guard: T) -> Guarded<T> {
        let mut cells = Vec::with_capacity(content.len() + 2 * GUARD);
        cells.resize(GUARD, guard);
        cells.extend_from_slice(content);
        cells.resize(content.len() + 2 * GUARD, guard);
        Guarded { cells, guard }
    }

    pub fn content_mut(&mut self) -> &mut [T] {
        let end = self.cells.len() - GUARD;
        &mut self.cells[GUARD..end]
    }

    pub fn content(&self) -> &[T] {
        &self.cells[GUARD..self.cells.len() - GUARD]
    }

    /// Says what differs from the expected content, or that a guard cell changed.
    pub fn compare(&self, what: &str, expected: &[T]) -> Result<(), String> {
        let end = self.cells.len() - GUARD;
        let guards = self.cells[..GUARD].iter().chain(&self.cells[end..]);
        if guards.into_iter().any(|&cell| cell != self.guard) {
            return Err(format!("memory outside the {what} changed"));
        }
        same(what, self.content(), expected)
    }
}

/// Says at which index two slices differ first.
pub fn same<T: PartialEq + Debug>(what: &str, found: &[T], expected: &[T]) -> Result<(), String> {
    if found == expected {
        return Ok(());
    }
    let pairs = found.iter().zip(expected);
    let index = pairs.into_iter().position(|(left, right)| left != right);
    let index = index.unwrap_or(found.len().min(expected.len()));
    Err(format!(
        "{what}[{index}] is {:?}, expected {:?}",
        found.get(index),
        expected.get(index)
    ))
}
