//! The plain program as a library, for programs that judge many texts by it.

pub mod calls;
pub mod faults;
pub mod picture;
pub mod reader;
pub mod reports;
pub mod rows;
pub mod search;
pub mod writer;
