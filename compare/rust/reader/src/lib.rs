//! The crate linux-perf-event-reader as the sources expect it.
//!
//! Debian has version 0.8, and everything that a question reaches (`CpuMode`, `PerfEventHeader`, `Endianness`, the
//! constants) is taken from it as it is. The sources want a newer one only for how an event attribute is parsed; no
//! question parses one, so that part stands in here and always fails.

use std::io::{Error, ErrorKind, Read};

use byteorder::ByteOrder;

pub use published::*;

#[derive(Debug, Clone, Copy)]
pub struct PerfEventAttr;

impl PerfEventAttr {
    pub fn parse<R: Read, T: ByteOrder>(_reader: R) -> Result<(Self, u64), Error> {
        Err(Error::from(ErrorKind::Unsupported))
    }
}
