//! Stands for packet/mac.rs, which is not among the published files: a V4 tail of at most 24 bytes is a MAC of any
//! content, as RULES, part 7, has it, and the tail of a V3 packet has any length.
use std::borrow::Cow;

use super::error::ParsingError;
use crate::io::NonBlockingWrite;

#[derive(Debug, Clone, PartialEq, Eq)]
pub(super) struct Mac<'a> {
    bytes: Cow<'a, [u8]>,
}

impl<'a> Mac<'a> {
    pub(super) const MAXIMUM_SIZE: usize = 24;

    pub(super) fn into_owned(self) -> Mac<'static> {
        Mac { bytes: Cow::Owned(self.bytes.into_owned()) }
    }

    pub(super) fn serialize(&self, mut w: impl NonBlockingWrite) -> std::io::Result<()> {
        w.write_all(&self.bytes)
    }

    pub(super) fn deserialize(data: &'a [u8]) -> Result<Mac<'a>, ParsingError<std::convert::Infallible>> {
        Ok(Mac { bytes: Cow::Borrowed(data) })
    }
}
