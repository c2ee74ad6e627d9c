//! A table as rows of numbers, the first of each its key.

/// `N` places, each with `W` numbers, of which `count` are said to be in use.
pub struct Table<const W: usize, const N: usize> {
    pub rows: [[u64; W]; N],
    pub count: usize,
}

impl<const W: usize, const N: usize> Table<W, N> {
    /// The table whose rows are given place by place.
    pub fn of(count: usize, row: impl Fn(usize) -> [u64; W]) -> Self {
        Table { rows: std::array::from_fn(row), count }
    }

    /// Whether the count is within the places, the keys go up, and every place from the count on is 0.
    pub fn ordered(&self) -> bool {
        self.count <= N
            && self.rows[..self.count].windows(2).all(|pair| pair[0][0] < pair[1][0])
            && self.rows[self.count..].iter().all(|row| row.iter().all(|number| *number == 0))
    }

    /// Puts a row under its key, over the one of that key or into a free place; whether there was room. The table is in
    /// order.
    pub fn put(&mut self, row: [u64; W]) -> bool {
        match self.rows[..self.count].binary_search_by_key(&row[0], |other| other[0]) {
            Ok(place) => self.rows[place] = row,
            Err(_) if self.count == N => return false,
            Err(place) => {
                self.rows[place..=self.count].rotate_right(1);
                self.rows[place] = row;
                self.count += 1;
            }
        }
        true
    }

    /// The rows up to the count, or to the last place.
    pub fn used(&self) -> &[[u64; W]] {
        &self.rows[..self.count.min(N)]
    }
}
