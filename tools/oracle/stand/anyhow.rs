//! Stands in for the crate anyhow: any error in a box.

use std::error::Error as StdError;
use std::fmt;

pub struct Error(Box<dyn StdError + Send + Sync>);

impl Error {
    pub fn msg(message: impl fmt::Display) -> Error {
        Error(message.to_string().into())
    }
}

impl<E: StdError + Send + Sync + 'static> From<E> for Error {
    fn from(error: E) -> Error {
        Error(Box::new(error))
    }
}

impl AsRef<dyn StdError> for Error {
    fn as_ref(&self) -> &(dyn StdError + 'static) {
        &*self.0
    }
}

impl fmt::Display for Error {
    fn fmt(&self, f: &mut fmt::Formatter<'_>) -> fmt::Result {
        fmt::Display::fmt(&self.0, f)
    }
}

impl fmt::Debug for Error {
    fn fmt(&self, f: &mut fmt::Formatter<'_>) -> fmt::Result {
        fmt::Debug::fmt(&self.0, f)
    }
}

#[macro_export]
macro_rules! anyhow {
    ($error:expr) => {
        $crate::Error::msg($error)
    };
}
