//! Memory for a result whose length only the call itself finds out.

use crate::Refusal;
use crate::calls::Room;
use std::alloc::{self, Layout};
use std::mem::{self, ManuallyDrop, MaybeUninit};

/// A result of up to this length is first written to the stack.
const SMALL: usize = 2048;

/// A format of more bytes than this is expected to give a longer one.
const LONG_FORMAT: usize = SMALL / 8;

/// Appends what a call writes; the call answers how many bytes those are, and the rest.
///
/// What is answered does not depend on the guess of the result's length. More memory than the result needs is used
/// meanwhile only: `bytes` ends with as much as it holds, or, where that is more, twice what it had, so that appending
/// again and again takes linear time. `ResultTooLong` comes where the memory for the result itself can't be had. A
/// refusal leaves bytes and capacity as they were.
pub(crate) fn append<T>(
    bytes: &mut Vec<u8>,
    format_length: usize,
    guess: impl Fn() -> usize,
    call: impl Fn(&mut Room) -> Result<(usize, T), Refusal>,
) -> Result<T, Refusal> {
    let before = bytes.capacity();
    if format_length > LONG_FORMAT && spare(bytes) < SMALL {
        let _ = reserve(bytes, guess());
    }
    let mut answer = append_first(bytes, &call);
    if let Err(Refusal::ResultTooLong) = answer {
        answer = append_growing(bytes, before == 0, guess(), &call);
    }
    let grown = answer.is_ok() && bytes.len() > before;
    shrink(bytes, if grown { before.saturating_mul(2) } else { before });
    answer
}

fn spare(bytes: &Vec<u8>) -> usize {
    bytes.capacity() - bytes.len()
}

/// With the space that there is, or by way of the stack.
fn append_first<T>(bytes: &mut Vec<u8>, call: impl Fn(&mut Room) -> Result<(usize, T), Refusal>) -> Result<T, Refusal> {
    if spare(bytes) >= SMALL {
        return append_in_place(bytes, call);
    }
    let mut small = [MaybeUninit::uninit(); SMALL];
    let (written, answer) = call(&mut small)?;
    reserve(bytes, written)?;
    bytes.spare_capacity_mut()[..written].copy_from_slice(&small[..written]);
    // SAFETY: an accepted call has written these bytes, and they were copied here.
    unsafe { bytes.set_len(bytes.len() + written) };
    Ok(answer)
}

fn append_in_place<T>(
    bytes: &mut Vec<u8>,
    call: impl Fn(&mut Room) -> Result<(usize, T), Refusal>,
) -> Result<T, Refusal> {
    let (written, answer) = call(bytes.spare_capacity_mut())?;
    // SAFETY: an accepted call has written these bytes, and they are within the space that it was lent.
    unsafe { bytes.set_len(bytes.len() + written) };
    Ok(answer)
}

/// Lends more and more space: the guess, then four times what was too short. Where the memory can't be had, the next is
/// halfway between what was too short and what can't be had, until nothing lies between them.
fn append_growing<T>(
    bytes: &mut Vec<u8>,
    fresh: bool,
    guess: usize,
    call: impl Fn(&mut Room) -> Result<(usize, T), Refusal>,
) -> Result<T, Refusal> {
    let (mut short, mut absent) = (0, None);
    let mut space = guess.max(2 * SMALL);
    while space > short {
        if fresh {
            *bytes = Vec::new(); // so that the shorter block is free when the longer one is asked for
        }
        match reserve(bytes, space) {
            Err(_) => absent = Some(space),
            Ok(()) => match append_in_place(bytes, &call) {
                Err(Refusal::ResultTooLong) => short = spare(bytes),
                answer => return answer,
            },
        }
        space = absent.map_or(short.saturating_mul(4), |absent| short.midpoint(absent));
    }
    Err(Refusal::ResultTooLong)
}

/// Space for some more bytes; where it must grow, to twice the memory if that can be had.
fn reserve(bytes: &mut Vec<u8>, more: usize) -> Result<(), Refusal> {
    if spare(bytes) >= more {
        return Ok(());
    }
    let doubled = bytes.capacity().saturating_mul(2).saturating_sub(bytes.len());
    bytes
        .try_reserve_exact(doubled.max(more))
        .or_else(|_| bytes.try_reserve_exact(more))
        .map_err(|_| Refusal::ResultTooLong)
}

/// Gives back memory down to a capacity. Where the allocator can't, keeps it: `Vec::shrink_to` would end the process.
fn shrink(bytes: &mut Vec<u8>, capacity: usize) {
    let capacity = capacity.max(bytes.len());
    if capacity == 0 {
        *bytes = Vec::new();
    }
    if bytes.capacity() <= capacity {
        return;
    }
    let mut old = ManuallyDrop::new(mem::take(bytes));
    let layout = Layout::array::<u8>(old.capacity()).expect("a vector's block has a layout");
    // SAFETY: a vector's block is of the global allocator, with this layout; the new size is above 0 and below the old.
    let moved = unsafe { alloc::realloc(old.as_mut_ptr(), layout, capacity) };
    let (start, capacity) = if moved.is_null() { (old.as_mut_ptr(), old.capacity()) } else { (moved, capacity) };
    // SAFETY: the block has this capacity and the old vector's bytes at its front, and nothing else owns it.
    *bytes = unsafe { Vec::from_raw_parts(start, old.len(), capacity) };
}
