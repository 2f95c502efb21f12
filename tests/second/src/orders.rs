//! The orders of so many things, in dictionary order of their positions.

/// Goes through the orders; each is the list of positions.
pub struct Orders {
    next: Option<Vec<usize>>,
}

impl Orders {
    pub fn of(count: usize) -> Orders {
        Orders { next: Some((0..count).collect()) }
    }
}

impl Iterator for Orders {
    type Item = Vec<usize>;

    fn next(&mut self) -> Option<Vec<usize>> {
        let order = self.next.take()?;
        self.next = following(&order);
        Some(order)
    }
}

/// The next order: the last position that has a greater one behind it gives
/// way to the least such, and what is behind it starts anew, rising.
fn following(order: &[usize]) -> Option<Vec<usize>> {
    let at = order.windows(2).rposition(|two| two[0] < two[1])?;
    let greater = order.iter().rposition(|other| *other > order[at])?;
    let mut next = order.to_vec();
    next.swap(at, greater);
    next[at + 1..].reverse();
    Some(next)
}
