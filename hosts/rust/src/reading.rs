//! Reading into a list of its own.

use crate::calls::{self, Room};
use crate::{Refusal, ValueList, room};

/// The values, and the next position.
pub(crate) fn unpack(format: &[u8], data: &[u8], start: i64) -> Result<(ValueList, i64), Refusal> {
    let call = |room: &mut Room| calls::unpack(format, data, start, room);
    let mut list = Vec::new();
    let position = room::append(&mut list, format.len(), || guess(format, data), call)?;
    Ok((ValueList::trusted(list), position))
}

/// A value's option is a byte of the format, and the texts lie apart in the data.
fn guess(format: &[u8], data: &[u8]) -> usize {
    let most = format.len().saturating_mul(11).saturating_add(data.len());
    calls::list_bound(format, data.len() as u64).map_or(most, |bound| most.min(bound as usize))
}
