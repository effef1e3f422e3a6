//! Stands in for the crate chrono: the names that error.rs takes from it. There is no calendar behind them.

use std::fmt;
use std::marker::PhantomData;

#[derive(Debug)]
pub enum ParseError {}

impl fmt::Display for ParseError {
    fn fmt(&self, _f: &mut fmt::Formatter<'_>) -> fmt::Result {
        match *self {}
    }
}

impl std::error::Error for ParseError {}

pub struct Utc;

pub struct DateTime<Zone>(PhantomData<Zone>);

pub enum LocalResult<T> {
    None,
    Single(T),
    Ambiguous(T, T),
}

pub trait TimeZone: Sized {
    fn timestamp_millis_opt(&self, _milliseconds: i64) -> LocalResult<DateTime<Self>> {
        unimplemented!()
    }
}

impl TimeZone for Utc {}
