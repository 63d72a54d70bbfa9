//! A token of the stream.

use super::{CharInfo, UserData};

#[derive(Copy, Clone, Default)]
pub struct Token {
    pub ch: char,
    pub info: CharInfo,
    /// The record that the token comes from.
    pub data: UserData,
}
