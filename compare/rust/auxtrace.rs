//! Stands in for a module that is not at hand. No question reaches it.

use std::io::{Error, ErrorKind};
use std::marker::PhantomData;

use byteorder::ByteOrder;
use linux_perf_event_reader::RawData;

#[derive(Debug, Clone)]
pub struct Auxtrace<'a>(PhantomData<&'a ()>);

impl<'a> Auxtrace<'a> {
    pub fn parse<T: ByteOrder>(_data: RawData<'a>) -> Result<Self, Error> {
        Err(Error::from(ErrorKind::Unsupported))
    }
}
