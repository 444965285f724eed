//! Stands for packet/v5/error.rs: the four ways in which a V5 packet is refused.
use crate::packet::error::ParsingError;
use std::convert::Infallible;

#[derive(Debug)]
pub enum V5Error {
    InvalidDraftIdentification,
    MalformedTimescale,
    MalformedMode,
    InvalidFlags,
}
impl V5Error {
    pub(crate) const fn into_parse_err(self) -> ParsingError<Infallible> {
        ParsingError::V5(self)
    }
}
impl std::fmt::Display for V5Error {
    fn fmt(&self, f: &mut std::fmt::Formatter<'_>) -> std::fmt::Result {
        write!(f, "{self:?}")
    }
}
impl From<V5Error> for ParsingError<Infallible> {
    fn from(value: V5Error) -> Self {
        value.into_parse_err()
    }
}
