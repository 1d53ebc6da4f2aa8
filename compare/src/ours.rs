//! Our library through its C ABI: the declarations, and a safe function for each.
//!
//! Each answers the refusal's number as an error. The answer's places are filled with a mark first;
//! a refusal that changed one of them is answered as `ANSWER_CHANGED`.

unsafe extern "C" {
    fn digribbon_packsize(format: *const u8, format_length: usize, answer: *mut u64) -> u64;
    fn digribbon_packsize_range(
        format: *const u8,
        format_length: usize,
        pairs: *const u8,
        pairs_length: usize,
        answer: *mut u64,
    ) -> u64;
    fn digribbon_list_bound(format: *const u8, format_length: usize, data_length: u64, answer: *mut u64) -> u64;
    fn digribbon_pack(
        format: *const u8,
        format_length: usize,
        list: *const u8,
        list_length: usize,
        record: *mut u8,
        record_length: usize,
        answer: *mut u64,
    ) -> u64;
    fn digribbon_pack_continued(
        order: u64,
        limit: u64,
        length: u64,
        format: *const u8,
        format_length: usize,
        list: *const u8,
        list_length: usize,
        record: *mut u8,
        record_length: usize,
        answer: *mut u64,
    ) -> u64;
    fn digribbon_pack_tray(
        format: *const u8,
        format_length: usize,
        run: *const u8,
        run_length: usize,
        tray: *mut u8,
        tray_length: usize,
        place: *mut u64,
        answer: *mut u64,
    ) -> u64;
    fn digribbon_unpack(
        format: *const u8,
        format_length: usize,
        data: *const u8,
        data_length: usize,
        start: i64,
        list: *mut u8,
        list_length: usize,
        answer: *mut u64,
    ) -> u64;
    fn digribbon_list_after(list: *const u8, list_length: usize, fields: u64, answer: *mut u64) -> u64;
    fn digribbon_day_number(year: i64, month: i64, day: i64, answer: *mut u64) -> u64;
    fn digribbon_date(day: i64, answer: *mut u64) -> u64;
    fn digribbon_last_day(first: i64, months: i64, answer: *mut u64) -> u64;
}

/// Instead of a refusal's number: the call refused and changed its answer all the same.
pub const ANSWER_CHANGED: u64 = u64::MAX;

const MARK: u64 = 0xA5C3_96E1_5A3C_691E;

fn answered<const N: usize>(call: impl FnOnce(*mut u64) -> u64) -> Result<[u64; N], u64> {
    let mut answer = [MARK; N];
    match call(answer.as_mut_ptr()) {
        0 => Ok(answer),
        _ if answer != [MARK; N] => Err(ANSWER_CHANGED),
        number => Err(number),
    }
}

/// The size of the record of a format.
pub fn packsize(format: &[u8]) -> Result<u64, u64> {
    // SAFETY: here and below each slice is lent as its pointer and its length, and an answer has the room its call fills.
    answered::<1>(|answer| unsafe { digribbon_packsize(format.as_ptr(), format.len(), answer) }).map(|[size]| size)
}

/// The least and the greatest size of a record whose texts have lengths within the pairs.
pub fn packsize_range(format: &[u8], pairs: &[u8]) -> Result<[u64; 2], u64> {
    answered::<2>(|answer| unsafe {
        digribbon_packsize_range(format.as_ptr(), format.len(), pairs.as_ptr(), pairs.len(), answer)
    })
}

/// The list bound.
pub fn list_bound(format: &[u8], data_length: u64) -> Result<u64, u64> {
    answered::<1>(|answer| unsafe { digribbon_list_bound(format.as_ptr(), format.len(), data_length, answer) })
        .map(|[bound]| bound)
}

/// The record's length.
pub fn pack(format: &[u8], list: &[u8], record: &mut [u8]) -> Result<u64, u64> {
    answered::<1>(|answer| unsafe {
        digribbon_pack(
            format.as_ptr(),
            format.len(),
            list.as_ptr(),
            list.len(),
            record.as_mut_ptr(),
            record.len(),
            answer,
        )
    })
    .map(|[length]| length)
}

/// The state of continued writing.
#[derive(Clone, Copy, Debug, PartialEq, Eq)]
pub struct State {
    pub big: bool,
    pub limit: u64,
    pub length: u64,
}

/// "The start state is little, limit 1, length 0."
pub const START: State = State { big: false, limit: 1, length: 0 };

#[derive(Clone, Copy, Debug, PartialEq, Eq)]
pub struct Continued {
    pub next: State,
    pub written: u64,
    pub used: u64,
    pub items: u64,
}

pub fn pack_continued(state: State, format: &[u8], list: &[u8], record: &mut [u8]) -> Result<Continued, u64> {
    answered::<6>(|answer| unsafe {
        digribbon_pack_continued(
            u64::from(state.big),
            state.limit,
            state.length,
            format.as_ptr(),
            format.len(),
            list.as_ptr(),
            list.len(),
            record.as_mut_ptr(),
            record.len(),
            answer,
        )
    })
    .map(|[order, limit, length, written, used, items]| Continued {
        next: State { big: order != 0, limit, length },
        written,
        used,
        items,
    })
}

/// The tray's length, and the place; a place that the call doesn't set is the mark.
pub fn pack_tray(format: &[u8], run: &[u8], tray: &mut [u8]) -> (Result<u64, u64>, u64) {
    let mut place = MARK;
    let answer = answered::<1>(|answer| unsafe {
        digribbon_pack_tray(
            format.as_ptr(),
            format.len(),
            run.as_ptr(),
            run.len(),
            tray.as_mut_ptr(),
            tray.len(),
            &mut place,
            answer,
        )
    });
    (answer.map(|[length]| length), place)
}

/// The list's length, and the next position.
pub fn unpack(format: &[u8], data: &[u8], start: i64, list: &mut [u8]) -> Result<(u64, u64), u64> {
    answered::<2>(|answer| unsafe {
        digribbon_unpack(
            format.as_ptr(),
            format.len(),
            data.as_ptr(),
            data.len(),
            start,
            list.as_mut_ptr(),
            list.len(),
            answer,
        )
    })
    .map(|[length, position]| (length, position))
}

/// Where the list after some fields starts.
pub fn list_after(list: &[u8], fields: u64) -> Result<u64, u64> {
    answered::<1>(|answer| unsafe { digribbon_list_after(list.as_ptr(), list.len(), fields, answer) })
        .map(|[offset]| offset)
}

/// The calls about dates, ours or those of a peer. An answer has 1, 3 and 1 places.
#[derive(Clone, Copy)]
pub struct Dates {
    pub day_number: unsafe extern "C" fn(year: i64, month: i64, day: i64, answer: *mut u64) -> u64,
    pub date: unsafe extern "C" fn(day: i64, answer: *mut u64) -> u64,
    pub last_day: unsafe extern "C" fn(first: i64, months: i64, answer: *mut u64) -> u64,
}

pub const DATES: Dates = Dates { day_number: digribbon_day_number, date: digribbon_date, last_day: digribbon_last_day };

impl Dates {
    pub fn day_number(&self, [year, month, day]: [i64; 3]) -> Result<u64, u64> {
        answered::<1>(|answer| unsafe { (self.day_number)(year, month, day, answer) }).map(|[number]| number)
    }

    /// Year, month and day of the month.
    pub fn date(&self, day: i64) -> Result<[u64; 3], u64> {
        answered::<3>(|answer| unsafe { (self.date)(day, answer) })
    }

    pub fn last_day(&self, first: i64, months: i64) -> Result<u64, u64> {
        answered::<1>(|answer| unsafe { (self.last_day)(first, months, answer) }).map(|[number]| number)
    }
}
