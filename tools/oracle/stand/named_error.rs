//! Stands in for each of the crates of which error.rs only names an error (build.sh lists them): one that never comes.

use std::fmt;

#[derive(Debug)]
pub enum Error {}

impl fmt::Display for Error {
    fn fmt(&self, _f: &mut fmt::Formatter<'_>) -> fmt::Result {
        match *self {}
    }
}

impl std::error::Error for Error {}

/// The error's name in arrow-schema.
pub use Error as ArrowError;
/// The error's name in url.
pub use Error as ParseError;

/// The error's place in parquet.
pub mod errors {
    pub use super::Error as ParquetError;
}
