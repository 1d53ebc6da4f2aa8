//! The library's calls, over slices.

use crate::{Order, Refusal, State};
use std::mem::MaybeUninit;
use std::ptr;

/// A buffer that a call may write to. It need hold nothing: what a result buffer held before has no influence.
pub(crate) type Room = [MaybeUninit<u8>];

// As in ../include/digribbon.h.
unsafe extern "C" {
    fn digribbon_packsize(format: *const u8, format_len: usize, answer: &mut [u64; 1]) -> u64;
    fn digribbon_packsize_range(
        format: *const u8,
        format_len: usize,
        pairs: *const u8,
        pairs_len: usize,
        answer: &mut [u64; 2],
    ) -> u64;
    fn digribbon_list_bound(format: *const u8, format_len: usize, data_length: u64, answer: &mut [u64; 1]) -> u64;
    fn digribbon_pack_continued(
        order: u64,
        limit: u64,
        length: u64,
        format: *const u8,
        format_len: usize,
        list: *const u8,
        list_len: usize,
        record: *mut MaybeUninit<u8>,
        record_len: usize,
        answer: &mut [u64; 6],
    ) -> u64;
    fn digribbon_pack_tray(
        format: *const u8,
        format_len: usize,
        run: *const u8,
        run_len: usize,
        tray: *mut MaybeUninit<u8>,
        tray_len: usize,
        place: &mut [u64; 1],
        answer: &mut [u64; 1],
    ) -> u64;
    fn digribbon_unpack(
        format: *const u8,
        format_len: usize,
        data: *const u8,
        data_len: usize,
        start: i64,
        list: *mut MaybeUninit<u8>,
        list_len: usize,
        answer: &mut [u64; 2],
    ) -> u64;
    fn digribbon_list_after(list: *const u8, list_len: usize, fields: u64, answer: &mut [u64; 1]) -> u64;
    fn digribbon_day_number(year: i64, month: i64, day: i64, answer: &mut [u64; 1]) -> u64;
    fn digribbon_date(day: i64, answer: &mut [u64; 3]) -> u64;
    fn digribbon_last_day(first: i64, months: i64, answer: &mut [u64; 1]) -> u64;
}

// SAFETY, for every call below: a slice is lent as its pointer, which is never null, and its length, which is at most
// 2^63-1; a result buffer, an answer and a place are borrowed by nobody else, so nothing overlaps them.

pub(crate) fn packsize(format: &[u8]) -> Result<u64, Refusal> {
    answered(|answer| unsafe { digribbon_packsize(format.as_ptr(), format.len(), answer) }).map(|[size]| size)
}

/// The least and the greatest length of a record, from pairs of text lengths, each length in two bytes, big-endian.
pub(crate) fn packsize_range(format: &[u8], pairs: &[[u8; 4]]) -> Result<[u64; 2], Refusal> {
    let pairs = pairs.as_flattened();
    answered(|answer| unsafe {
        digribbon_packsize_range(format.as_ptr(), format.len(), pairs.as_ptr(), pairs.len(), answer)
    })
}

pub(crate) fn list_bound(format: &[u8], data_length: u64) -> Result<u64, Refusal> {
    answered(|answer| unsafe { digribbon_list_bound(format.as_ptr(), format.len(), data_length, answer) })
        .map(|[bound]| bound)
}

pub(crate) struct Continued {
    pub next: State,
    pub written: usize,
    pub used: usize,
    pub items: usize,
}

pub(crate) fn pack_continued(
    state: State,
    format: &[u8],
    list: &[u8],
    record: &mut Room,
) -> Result<Continued, Refusal> {
    #[cfg(test)]
    walked::add(list);
    answered(|answer| unsafe {
        digribbon_pack_continued(
            state.order as u64,
            state.limit,
            state.length,
            format.as_ptr(),
            format.len(),
            list.as_ptr(),
            list.len(),
            record.as_mut_ptr(),
            record.len(),
            answer,
        )
    })
    .map(|[order, limit, length, written, used, items]| Continued {
        next: State { order: if order == 0 { Order::Little } else { Order::Big }, limit, length },
        written: written as usize,
        used: used as usize,
        items: items as usize,
    })
}

/// The tray's length; or the refusal, and which record it is about, from 1, or 0 for none.
pub(crate) fn pack_tray(format: &[u8], run: &[u8], tray: &mut Room) -> Result<usize, (Refusal, usize)> {
    let mut place = [0];
    let answer = answered(|answer| unsafe {
        digribbon_pack_tray(
            format.as_ptr(),
            format.len(),
            run.as_ptr(),
            run.len(),
            tray.as_mut_ptr(),
            tray.len(),
            &mut place,
            answer,
        )
    });
    answer.map(|[length]| length as usize).map_err(|refusal| (refusal, place[0] as usize))
}

/// The length of the list, and the next position, which an i64 holds: no memory has 2^63-1 bytes of data.
pub(crate) fn unpack(format: &[u8], data: &[u8], start: i64, list: &mut Room) -> Result<(usize, i64), Refusal> {
    answered(|answer| unsafe {
        digribbon_unpack(
            format.as_ptr(),
            format.len(),
            data.as_ptr(),
            data.len(),
            start,
            list.as_mut_ptr(),
            list.len(),
            answer,
        )
    })
    .map(|[length, position]| (length as usize, position as i64))
}

/// How long the first fields of a list are; the list's length where it has fewer.
pub(crate) fn list_after(list: &[u8], fields: usize) -> usize {
    let [offset] = answered(|answer| unsafe { digribbon_list_after(list.as_ptr(), list.len(), fields as u64, answer) })
        .expect("this call is never refused");
    #[cfg(test)]
    walked::add(&list[..offset as usize]);
    offset as usize
}

/// A date's day number, which is at most 65,535.
pub(crate) fn day_number(year: i64, month: i64, day: i64) -> Result<u16, Refusal> {
    answered(|answer| unsafe { digribbon_day_number(year, month, day, answer) }).map(|[number]| number as u16)
}

/// The year, the month and the day of the month of a day number.
pub(crate) fn date(day: i64) -> Result<[u64; 3], Refusal> {
    answered(|answer| unsafe { digribbon_date(day, answer) })
}

/// The same of a number that is known to be a day's.
pub(crate) fn date_of_day(day: u16) -> [u64; 3] {
    date(day.into()).expect("a number of 0 to 65,535 is never refused")
}

/// The day number of a pass's last valid day, which is at most 65,535.
pub(crate) fn last_day(first: i64, months: i64) -> Result<u16, Refusal> {
    answered(|answer| unsafe { digribbon_last_day(first, months, answer) }).map(|[number]| number as u16)
}

fn answered<const N: usize>(call: impl FnOnce(&mut [u64; N]) -> u64) -> Result<[u64; N], Refusal> {
    let mut answer = [0; N];
    match call(&mut answer) {
        0 => Ok(answer),
        number => Err(Refusal::from_number(number).unwrap_or_else(|| panic!("the library answered {number}"))),
    }
}

/// Bytes, lent as a result buffer.
pub(crate) fn room(bytes: &mut [u8]) -> &mut Room {
    // SAFETY: the two have the same layout, and the library puts nothing but bytes there.
    unsafe { &mut *(ptr::from_mut(bytes) as *mut Room) }
}

/// How many fields of value lists the calls of a thread have walked over.
#[cfg(test)]
pub(crate) mod walked {
    use crate::Values;
    use std::cell::Cell;

    thread_local!(static FIELDS: Cell<usize> = const { Cell::new(0) });

    pub(super) fn add(list: &[u8]) {
        FIELDS.set(FIELDS.get() + Values::trusted(list).len());
    }

    pub(crate) fn take() -> usize {
        FIELDS.take()
    }
}
