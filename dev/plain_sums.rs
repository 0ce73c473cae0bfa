//! Sums of terms and the greatest common divisor, for `plain_confirm.rs` and `plain_run.rs`.

use std::cmp::Ordering;
use std::vec::IntoIter;

/// The sum of terms, which are moved and descend: of two that are equal in their order `added` makes one, or none.
pub fn sum<T, E>(
    mut left: IntoIter<T>,
    mut right: IntoIter<T>,
    compared: impl Fn(&T, &T) -> Ordering,
    added: impl Fn(T, T) -> Result<Option<T>, E>,
) -> Result<Vec<T>, E> {
    let mut total = Vec::with_capacity(left.len() + right.len());
    loop {
        let order = match (left.as_slice().first(), right.as_slice().first()) {
            (Some(one), Some(other)) => compared(one, other),
            (Some(_), None) => Ordering::Greater,
            (None, Some(_)) => Ordering::Less,
            (None, None) => return Ok(total),
        };
        match order {
            Ordering::Greater => total.extend(left.next()),
            Ordering::Less => total.extend(right.next()),
            Ordering::Equal => {
                for (one, other) in left.next().into_iter().zip(right.next()) {
                    total.extend(added(one, other)?);
                }
            }
        }
    }
}

pub fn greatest_divisor(left: i128, right: i128) -> i128 {
    let (mut left, mut right) = (left.unsigned_abs(), right.unsigned_abs());
    while right != 0 {
        (left, right) = (right, left % right);
    }
    left as i128
}
