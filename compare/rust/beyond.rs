//! Differences that no line of the comparison can show, asked one at a time on the command line:
//!
//!     rust_ask feature_name NUMBER
//!     rust_ask header_feature ORDER xRECORD      (a pipe record's bytes behind its header)
//!     rust_ask both_formats ORDER xFILE xFILE2   (symbol tables where sections 128 and 132 are both there)

use linux_perf_event_reader::RawData;

use crate::ask::{endian, file_of, hex, items, record, told, unhex};
use crate::features::Feature;
use crate::record::{RawUserRecord, UserRecord, UserRecordType};

pub fn answer(arguments: &[String]) -> Option<String> {
    let arguments: Vec<&str> = arguments.iter().map(String::as_str).collect();
    match arguments[..] {
        ["feature_name", number] => Some(Feature(number.parse().ok()?).to_string()),
        ["header_feature", order, bytes] => {
            let bytes = unhex(bytes)?;
            let record = RawUserRecord {
                record_type: UserRecordType::PERF_HEADER_FEATURE,
                endian: endian(order)?,
                misc: 0,
                data: RawData::from(&bytes[..]),
            };
            Some(match record.parse() {
                Ok(UserRecord::HeaderFeature(found)) => format!("feature {} {}", found.feature.0, hex(&found.data)),
                _ => "refused".to_owned(),
            })
        }
        ["both_formats", order, first, second] => {
            let sections = [
                (Feature::SIMPLEPERF_FILE, unhex(first)?),
                (Feature::SIMPLEPERF_FILE2, unhex(second)?),
            ];
            Some(told(file_of(endian(order)?, sections).simpleperf_symbol_tables(), |records| {
                items("records", records.iter().map(record).collect())
            }))
        }
        _ => None,
    }
}
