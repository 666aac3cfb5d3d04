//! The static library `desk`: its functions as declared there, and safe wrappers.

use second::refusal::Refusal;
use std::ptr;

mod library {
    #[link(name = "desk", kind = "static")]
    extern "C" {
        pub fn desk_step(class: u8, r: u16) -> u8;
        pub fn desk_ceiling(class: u8, latest: u32) -> u64;
        pub fn desk_cash_price(class: u8, short: u32, highest_long: u32, latest: u32) -> u64;
        pub fn desk_rounded(value: u64, divisor: u32) -> u64;
        pub fn desk_cash_fee(value: u64) -> u64;
        pub fn desk_award_fine(class: u8, value: u64) -> u64;
        pub fn desk_late_fine(value: u64) -> u64;
        pub fn desk_register(register: *const u8, length: usize) -> u64;
        pub fn desk_day_to_date(opening: u32, holidays: *const u8, length: usize, day: u32) -> u64;
        pub fn desk_date_to_day(opening: u32, holidays: *const u8, length: usize, date: u32) -> u64;
        pub fn desk_file(file: *const u8, length: usize) -> u64;
        pub fn desk_copy_file(file: *const u8, length: usize, page: *mut u8, page_length: usize) -> u64;
        pub fn desk_page(
            register: *const u8,
            register_length: usize,
            file: *const u8,
            file_length: usize,
            page: *mut u8,
            page_length: usize,
        ) -> u64;
    }
}

/// What a call answers: a refusal number, 0 for none, and a quantity.
#[derive(Clone, Copy, Debug, PartialEq, Eq)]
pub struct Answer {
    pub refusal: u32,
    pub quantity: u32,
}

impl Answer {
    pub fn accepted(quantity: u32) -> Answer {
        Answer { refusal: 0, quantity }
    }

    /// A refusal reports quantity 0.
    pub fn refused(refusal: u32) -> Answer {
        Answer { refusal, quantity: 0 }
    }

    /// The libraries answer refusal number * 2^32 + quantity.
    pub fn unpacked(packed: u64) -> Answer {
        Answer { refusal: (packed >> 32) as u32, quantity: packed as u32 }
    }
}

impl From<Result<u32, Refusal>> for Answer {
    fn from(result: Result<u32, Refusal>) -> Answer {
        match result {
            Ok(quantity) => Answer::accepted(quantity),
            Err(refusal) => Answer::refused(refusal as u32),
        }
    }
}

// Safety of the calls below: no function of the library has a precondition, and each slice is handed over
// whole, as its own pointer and length, for the time of the call.

pub fn step(class: u8, r: u16) -> u8 {
    unsafe { library::desk_step(class, r) }
}

pub fn ceiling(class: u8, latest: u32) -> u64 {
    unsafe { library::desk_ceiling(class, latest) }
}

/// Of the longs' reference prices the library takes the highest alone.
pub fn cash_price(class: u8, short_reference: u32, highest_long_reference: u32, latest: u32) -> u64 {
    unsafe { library::desk_cash_price(class, short_reference, highest_long_reference, latest) }
}

pub fn rounded(value: u64, divisor: u32) -> u64 {
    unsafe { library::desk_rounded(value, divisor) }
}

pub fn cash_fee(value: u64) -> u64 {
    unsafe { library::desk_cash_fee(value) }
}

pub fn award_fine(class: u8, value: u64) -> u64 {
    unsafe { library::desk_award_fine(class, value) }
}

pub fn late_fine(value: u64) -> u64 {
    unsafe { library::desk_late_fine(value) }
}

pub fn register(register: &[u8]) -> Answer {
    Answer::unpacked(unsafe { library::desk_register(register.as_ptr(), register.len()) })
}

pub fn day_to_date(opening: u32, holidays: &[u8], day: u32) -> Answer {
    Answer::unpacked(unsafe { library::desk_day_to_date(opening, holidays.as_ptr(), holidays.len(), day) })
}

pub fn date_to_day(opening: u32, holidays: &[u8], date: u32) -> Answer {
    Answer::unpacked(unsafe { library::desk_date_to_day(opening, holidays.as_ptr(), holidays.len(), date) })
}

pub fn file(file: &[u8]) -> Answer {
    Answer::unpacked(unsafe { library::desk_file(file.as_ptr(), file.len()) })
}

pub fn copy_file(file: &[u8], page: &mut [u8]) -> Answer {
    Answer::unpacked(unsafe { library::desk_copy_file(file.as_ptr(), file.len(), page.as_mut_ptr(), page.len()) })
}

/// One number answers: the bytes written, or the refusal. No bytes are handed over as NULL, as C may do.
pub fn page(register: &[u8], file: &[u8], page: &mut [u8]) -> u64 {
    let [register_length, file_length, page_length] = [register.len(), file.len(), page.len()];
    let [register, file] = [register, file].map(|bytes| if bytes.is_empty() { ptr::null() } else { bytes.as_ptr() });
    let page = if page.is_empty() { ptr::null_mut() } else { page.as_mut_ptr() };
    unsafe { library::desk_page(register, register_length, file, file_length, page, page_length) }
}
