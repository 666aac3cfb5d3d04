//! What the desk runs: it plays files with the proved player and shows what it printed, in words, tables and pages. The
//! desk's page of positions is the proved library's.
//!
//! The second implementation plays each file too. Its lines must be the player's, and its page the library's; then it
//! also says why a call was refused, which positions a close made and what each charge comes from.

pub mod check;
pub mod csv;
pub mod html;
pub mod kinds;
pub mod numbers;
pub mod output;
pub mod page;
pub mod played;
pub mod player;
pub mod reasons;
mod table;
pub mod text;
pub mod walk;
pub mod words;
