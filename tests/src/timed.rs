//! The static library `timed`: its function as declared there, and a safe wrapper.

use second::events::MOST_EVENTS;

mod library {
    #[link(name = "timed", kind = "static")]
    extern "C" {
        pub fn timed_play(input: *const u8, length: usize, page: *mut u8, page_length: usize) -> u64;
    }
}

/// The bytes that a page has for an event and for the end of a file.
const EVENT: usize = 82_000;
const END: usize = 87_040;

/// A page for any input. Of its bytes a system hands out those that are written.
pub fn page() -> Vec<u8> {
    vec![0; MOST_EVENTS * EVENT + END]
}

/// What the player prints for its input, which is played as the player plays it, written into the page's first bytes:
/// how many bytes it has.
pub fn play(input: &[u8], page: &mut [u8]) -> u64 {
    // Safety: as of the calls of `desk`.
    unsafe { library::timed_play(input.as_ptr(), input.len(), page.as_mut_ptr(), page.len()) }
}
