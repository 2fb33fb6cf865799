//! Lists that grow where memory allows it, and else refuse.

use crate::refusal::Refusal;
use std::collections::{BinaryHeap, TryReserveError};

impl From<TryReserveError> for Refusal {
    fn from(_: TryReserveError) -> Refusal {
        Refusal::OutOfMemory
    }
}

/// Adds one at the end.
pub fn push<T>(list: &mut Vec<T>, one: T) -> Result<(), Refusal> {
    list.try_reserve(1)?;
    list.push(one);
    Ok(())
}

/// Adds one to a heap.
pub fn enter<T: Ord>(heap: &mut BinaryHeap<T>, one: T) -> Result<(), Refusal> {
    heap.try_reserve(1)?;
    heap.push(one);
    Ok(())
}

/// So many times the same.
pub fn filled<T: Clone>(one: T, count: usize) -> Result<Vec<T>, Refusal> {
    let mut list = Vec::new();
    list.try_reserve_exact(count)?;
    list.resize(count, one);
    Ok(list)
}

/// All that come.
pub fn listed<T>(each: impl ExactSizeIterator<Item = T>) -> Result<Vec<T>, Refusal> {
    let mut list = Vec::new();
    list.try_reserve_exact(each.len())?;
    list.extend(each);
    Ok(list)
}

/// The bytes, copied.
pub fn boxed(bytes: &[u8]) -> Result<Box<[u8]>, Refusal> {
    Ok(listed(bytes.iter().copied())?.into_boxed_slice())
}
