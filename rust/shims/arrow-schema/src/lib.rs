//! A stand-in for arrow_schema: what parquet-variant 60.0.0 names of it, and no more.

use std::fmt;

/// The kinds of error that the crate makes.
#[derive(Debug)]
pub enum ArrowError {
    InvalidArgumentError(String),
    CastError(String),
    ParseError(String),
}

impl fmt::Display for ArrowError {
    fn fmt(&self, to: &mut fmt::Formatter<'_>) -> fmt::Result {
        match self {
            Self::InvalidArgumentError(text) => write!(to, "Invalid argument error: {text}"),
            Self::CastError(text) => write!(to, "Cast error: {text}"),
            Self::ParseError(text) => write!(to, "Parser error: {text}"),
        }
    }
}

impl std::error::Error for ArrowError {}

pub const DECIMAL32_MAX_PRECISION: u8 = 9;
pub const DECIMAL64_MAX_PRECISION: u8 = 18;
pub const DECIMAL128_MAX_PRECISION: u8 = 38;
