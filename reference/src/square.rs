//! Square arrays: tiles, their bins, and the parts of an image that the search looks at.

use std::ops::{Index, IndexMut};

#[derive(Clone, Debug, PartialEq, Eq)]
pub struct Square<T> {
    side: usize,
    /// Row by row.
    values: Vec<T>,
}

impl<T> Square<T> {
    /// The square with `value(row, column)` at each place.
    pub fn from_fn(side: usize, value: impl Fn(usize, usize) -> T) -> Square<T> {
        let rows = (0..side).flat_map(|row| (0..side).map(move |column| (row, column)));
        let values = rows.map(|(row, column)| value(row, column)).collect();
        Square { side, values }
    }

    pub fn side(&self) -> usize {
        self.side
    }

    pub fn row(&self, row: usize) -> &[T] {
        &self.values[row * self.side..][..self.side]
    }

    /// All values, row by row.
    pub fn iter(&self) -> impl Iterator<Item = &T> {
        self.values.iter()
    }

    pub fn map<U>(&self, value: impl Fn(&T) -> U) -> Square<U> {
        Square {
            side: self.side,
            values: self.iter().map(value).collect(),
        }
    }
}

impl<T: Clone> Square<T> {
    pub fn filled(side: usize, value: T) -> Square<T> {
        Square::from_fn(side, |_, _| value.clone())
    }
}

/// By row and column.
impl<T> Index<(usize, usize)> for Square<T> {
    type Output = T;

    fn index(&self, (row, column): (usize, usize)) -> &T {
        &self.row(row)[column]
    }
}

impl<T> IndexMut<(usize, usize)> for Square<T> {
    fn index_mut(&mut self, (row, column): (usize, usize)) -> &mut T {
        &mut self.values[row * self.side..][..self.side][column]
    }
}
