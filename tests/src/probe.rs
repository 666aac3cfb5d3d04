//! The static library `probe`: its functions as declared there, and safe wrappers.

use fails_book_tests::desk::Answer;

mod library {
    #[link(name = "probe", kind = "static")]
    extern "C" {
        pub fn probe_last_call(input: *const u8, length: usize, closes: u32, sheet: u32) -> u64;
        pub fn probe_last_lines(input: *const u8, length: usize, page: *mut u8, page_length: usize) -> u32;
        pub fn probe_latest_price(
            register: *const u8,
            register_length: usize,
            file: *const u8,
            file_length: usize,
            security: u16,
        ) -> u64;
    }
}

// Safety of the calls below: as of those of `desk`.

/// The answer to the last call of the player's input, made with a sheet of so many places on a book that has first
/// been closed so many times.
pub fn last_call(input: &[u8], closes: u32, sheet: u32) -> Answer {
    Answer::unpacked(unsafe { library::probe_last_call(input.as_ptr(), input.len(), closes, sheet) })
}

/// The lines of the last event of the player's input, its call made on a lent sheet, written into the page's first
/// bytes: how many bytes they have.
pub fn last_lines(input: &[u8], page: &mut [u8]) -> u32 {
    unsafe { library::probe_last_lines(input.as_ptr(), input.len(), page.as_mut_ptr(), page.len()) }
}

/// The latest price of a security once the file is played on a new book: the price times 65,536, plus the day on which
/// it was given; 0 where the security never had one; or else the refusal, 1 to 7 or 10.
pub fn latest_price(register: &[u8], file: &[u8], security: u16) -> u64 {
    unsafe { library::probe_latest_price(register.as_ptr(), register.len(), file.as_ptr(), file.len(), security) }
}
