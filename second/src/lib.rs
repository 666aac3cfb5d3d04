//! The second implementation of the fails book, written from documents 01 and 02 and ISO 6166 alone, in another style
//! than the first one.

pub mod book;
pub mod calendar;
pub mod charges;
pub mod events;
pub mod page;
pub mod refusal;
pub mod register;
pub mod transcript;
pub mod windows;
