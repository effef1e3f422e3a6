//! Stands in for the crate futures: the names that error.rs and file_io.rs take from it.

use std::pin::Pin;

pub trait Stream {
    type Item;
}

pub trait StreamExt: Stream {
    fn boxed<'a>(self) -> stream::BoxStream<'a, Self::Item>
    where
        Self: Sized + Send + 'a,
    {
        Box::pin(self)
    }
}

impl<S: Stream> StreamExt for S {}

pub mod stream {
    pub type BoxStream<'a, T> = super::Pin<Box<dyn super::Stream<Item = T> + Send + 'a>>;
}

pub mod channel {
    pub mod mpsc {
        use std::fmt;

        #[derive(Debug)]
        pub enum SendError {}

        impl fmt::Display for SendError {
            fn fmt(&self, _f: &mut fmt::Formatter<'_>) -> fmt::Result {
                match *self {}
            }
        }

        impl std::error::Error for SendError {}
    }
}
