//! One line, one answer. It stands inside the crate because a `PerfFile` can be made of single sections only here.

use std::io::ErrorKind;
use std::str::Utf8Error;

use linear_map::LinearMap;
use linux_perf_event_reader::{CpuMode, Endianness};

use crate::dso_key::DsoKey;
use crate::features::{Feature, FeatureSet};
use crate::perf_file::PerfFile;
use crate::simpleperf::{SimpleperfFileRecord, SimpleperfTypeSpecificInfo};
use crate::Error;

const REFUSED: &str = "refused";
const ABSENT: &str = "absent";
const BAD_LINE: &str = "bad line";

pub fn answer(line: &[u8]) -> String {
    std::str::from_utf8(line).ok().and_then(answer_text).unwrap_or_else(|| BAD_LINE.to_owned())
}

/// Nothing for a line that is no question.
fn answer_text(line: &str) -> Option<String> {
    let fields: Vec<&str> = line.split(' ').collect();
    let [question, order, number, bytes] = fields[..] else { return None };
    let endian = endian(order)?;
    let number = decimal(number)?;
    match question {
        "detect" => {
            let misc = u16::try_from(number).ok()?;
            Some(match DsoKey::detect(&unhex(bytes)?, CpuMode::from_misc(misc)) {
                Some(key) => format!("key {} {}", KINDS[kind(&key)], hex(key.name().as_bytes())),
                None => ABSENT.to_owned(),
            })
        }
        "shown" => {
            let bytes = unhex(bytes)?;
            Some(format!("text {}", hex(String::from_utf8_lossy(&bytes).as_bytes())))
        }
        _ => {
            let feature = feature(question)?;
            let section = if bytes == "-" { None } else { Some(unhex(bytes)?) };
            Some(ask(question, &file(endian, feature, section)))
        }
    }
}

pub fn endian(order: &str) -> Option<Endianness> {
    match order {
        "le" => Some(Endianness::LittleEndian),
        "be" => Some(Endianness::BigEndian),
        _ => None,
    }
}

/// Rows and misc fields: at most 65536, digits alone. The Rust has no rows, so the number says nothing here.
fn decimal(text: &str) -> Option<u32> {
    if text.is_empty() || !text.bytes().all(|b| b.is_ascii_digit()) {
        return None;
    }
    text.parse().ok().filter(|n| *n <= 65536)
}

pub fn unhex(text: &str) -> Option<Vec<u8>> {
    let digits = text.strip_prefix('x')?.as_bytes();
    if digits.len() % 2 != 0 {
        return None;
    }
    let digit = |b: u8| match b {
        b'0'..=b'9' => Some(b - b'0'),
        b'a'..=b'f' => Some(b - b'a' + 10),
        _ => None,
    };
    digits.chunks(2).map(|pair| Some(digit(pair[0])? << 4 | digit(pair[1])?)).collect()
}

pub fn hex(bytes: &[u8]) -> String {
    const DIGITS: &[u8; 16] = b"0123456789abcdef";
    let mut text = String::with_capacity(2 * bytes.len() + 1);
    text.push('x');
    for b in bytes {
        text.push(DIGITS[usize::from(b >> 4)] as char);
        text.push(DIGITS[usize::from(b & 15)] as char);
    }
    text
}

fn feature(question: &str) -> Option<Feature> {
    Some(match question {
        "hostname" => Feature::HOSTNAME,
        "os_release" => Feature::OSRELEASE,
        "perf_version" => Feature::VERSION,
        "arch" => Feature::ARCH,
        "cpu_desc" => Feature::CPUDESC,
        "cpu_id" => Feature::CPUID,
        "cmdline" => Feature::CMDLINE,
        "nr_cpus" => Feature::NRCPUS,
        "total_mem" => Feature::TOTAL_MEM,
        "sample_time_range" => Feature::SAMPLE_TIME,
        "clock_frequency" => Feature::CLOCKID,
        "compression_info" => Feature::COMPRESSED,
        "clock_data" => Feature::CLOCK_DATA,
        "is_stats" => Feature::STAT,
        "pmu_mappings" => Feature::PMU_MAPPINGS,
        "meta_info" => Feature::SIMPLEPERF_META_INFO,
        "build_ids" => Feature::BUILD_ID,
        "symbol_tables" => Feature::SIMPLEPERF_FILE,
        _ => return None,
    })
}

/// A file with the one section, or with none.
fn file(endian: Endianness, feature: Feature, section: Option<Vec<u8>>) -> PerfFile {
    file_of(endian, section.map(|section| (feature, section)))
}

pub fn file_of(endian: Endianness, given: impl IntoIterator<Item = (Feature, Vec<u8>)>) -> PerfFile {
    let mut words = [0; 4];
    let mut sections = LinearMap::new();
    for (feature, section) in given {
        words[feature.0 as usize / 64] |= 1 << (feature.0 % 64);
        sections.insert(feature, section);
    }
    PerfFile {
        endian,
        features: FeatureSet(words),
        feature_sections: sections,
        attributes: Vec::new(),
    }
}

/// An answer of the crate in words: an error is a refusal, and nothing is absent.
pub fn told<T>(answer: Result<Option<T>, Error>, words: impl FnOnce(T) -> String) -> String {
    match answer {
        Ok(Some(value)) => words(value),
        Ok(None) => ABSENT.to_owned(),
        Err(error) if std::env::var_os("RUST_ASK_NUMBERS").is_some() => format!("{REFUSED} {}", number(&error)),
        Err(_) => REFUSED.to_owned(),
    }
}

/// The number of the refusal that an error stands for, by its kind and, where two share a kind, by its words. 0 is for
/// those that no question should meet.
fn number(error: &Error) -> u32 {
    match error {
        Error::FeatureSectionTooSmall => 6,
        Error::NotEnoughSpaceForStringLen => 7,
        Error::NotEnoughSpaceForStringListLen => 8,
        Error::StringLengthTooLong => 9,
        Error::StringUtf8 => 10,
        Error::IoError(error) | Error::ParsingSimpleperfFileV1Section(error) => {
            let words = error.to_string();
            let begins = |start: &str| words.starts_with(start);
            match error.kind() {
                ErrorKind::UnexpectedEof if begins("Nul terminator") => 15,
                ErrorKind::UnexpectedEof => 11,
                ErrorKind::InvalidData if begins("Unsupported clock data version") => 12,
                ErrorKind::InvalidData if begins("unknown file type") => 13,
                ErrorKind::InvalidData if begins("Unreasonable symbol count") => 14,
                ErrorKind::InvalidData if error.get_ref().is_some_and(|inner| inner.is::<Utf8Error>()) => 10,
                _ => 0,
            }
        }
        _ => 0,
    }
}

fn text(answer: Result<Option<&str>, Error>) -> String {
    told(answer, |text| format!("text {}", hex(text.as_bytes())))
}

fn numbers(values: &[u64]) -> String {
    let values: Vec<String> = values.iter().map(u64::to_string).collect();
    format!("numbers {}", values.join(" "))
}

pub fn items(word: &str, items: Vec<String>) -> String {
    let mut text = format!("{word} {}", items.len());
    for item in items {
        text.push(' ');
        text.push_str(&item);
    }
    text
}

fn ask(question: &str, file: &PerfFile) -> String {
    match question {
        "hostname" => text(file.hostname()),
        "os_release" => text(file.os_release()),
        "perf_version" => text(file.perf_version()),
        "arch" => text(file.arch()),
        "cpu_desc" => text(file.cpu_desc()),
        "cpu_id" => text(file.cpu_id()),
        "cmdline" => told(file.cmdline(), |list| {
            items("texts", list.iter().map(|text| hex(text.as_bytes())).collect())
        }),
        "nr_cpus" => told(file.nr_cpus(), |n| {
            numbers(&[n.nr_cpus_available.into(), n.nr_cpus_online.into()])
        }),
        "total_mem" => told(file.total_mem(), |n| numbers(&[n])),
        "sample_time_range" => told(file.sample_time_range(), |n| {
            numbers(&[n.first_sample_time, n.last_sample_time])
        }),
        "clock_frequency" => told(file.clock_frequency(), |n| numbers(&[n])),
        "compression_info" => told(file.compression_info(), |n| {
            numbers(&[n.version.into(), n.type_.into(), n.level.into(), n.ratio.into(), n.mmap_len.into()])
        }),
        "clock_data" => told(file.clock_data(), |n| {
            numbers(&[n.clockid.into(), n.wall_clock_ns, n.clockid_time_ns])
        }),
        "is_stats" => if file.is_stats() { "present" } else { ABSENT }.to_owned(),
        "pmu_mappings" => told(file.pmu_mappings(), |map| {
            let mut rows: Vec<_> = map.0.iter().collect();
            rows.sort();
            items("rows", rows.iter().map(|(n, name)| format!("{n}:{}", hex(name.as_bytes()))).collect())
        }),
        "meta_info" => told(file.simpleperf_meta_info(), |map| {
            let mut rows: Vec<_> = map.iter().map(|(k, v)| (k.as_bytes(), v.as_bytes())).collect();
            rows.sort();
            items("rows", rows.iter().map(|(k, v)| format!("{}:{}", hex(k), hex(v))).collect())
        }),
        "build_ids" => build_ids(file),
        "symbol_tables" => told(file.simpleperf_symbol_tables(), |records| {
            items("records", records.iter().map(record).collect())
        }),
        _ => BAD_LINE.to_owned(),
    }
}

const KINDS: [&str; 8] =
    ["Kernel", "GuestKernel", "Vdso32", "VdsoX32", "Vdso64", "Vsyscall", "KernelModule", "User"];

fn kind(key: &DsoKey) -> usize {
    match key {
        DsoKey::Kernel => 0,
        DsoKey::GuestKernel => 1,
        DsoKey::Vdso32 => 2,
        DsoKey::VdsoX32 => 3,
        DsoKey::Vdso64 => 4,
        DsoKey::Vsyscall => 5,
        DsoKey::KernelModule { .. } => 6,
        DsoKey::User { .. } => 7,
    }
}

/// The Rust does not tell an absent section from an empty one; the section does.
fn build_ids(file: &PerfFile) -> String {
    let absent = file.feature_section_data(Feature::BUILD_ID).is_none();
    told(file.build_ids().map(|map| (!absent || !map.is_empty()).then_some(map)), |map| {
        let mut rows: Vec<_> = map.iter().collect();
        rows.sort_by_key(|(key, _)| {
            let by = match key {
                DsoKey::KernelModule { name } => name.as_bytes(),
                DsoKey::User { full_path, .. } => full_path,
                _ => b"",
            };
            (kind(key), by)
        });
        items("rows", rows.iter().map(|(key, info)| {
            format!("{}:{}:{}:{}", KINDS[kind(key)], hex(key.name().as_bytes()), hex(&info.path), hex(&info.build_id))
        }).collect())
    })
}

pub fn record(record: &SimpleperfFileRecord) -> String {
    let tail = match &record.type_specific_msg {
        None => "-".to_owned(),
        Some(SimpleperfTypeSpecificInfo::ElfFile(info)) => format!("elf={}", info.file_offset_of_min_vaddr),
        Some(SimpleperfTypeSpecificInfo::KernelModule(info)) => format!("module={}", info.memory_offset_of_min_vaddr),
        Some(SimpleperfTypeSpecificInfo::SimpleperfDexFileInfo(info)) => {
            let offsets: Vec<String> = info.dex_file_offset.iter().map(u64::to_string).collect();
            format!("dex={}", offsets.join(","))
        }
    };
    let symbols: Vec<String> =
        record.symbol.iter().map(|s| format!("{},{},{}", s.vaddr, s.len, hex(s.name.as_bytes()))).collect();
    let symbols = if symbols.is_empty() { "-".to_owned() } else { symbols.join(";") };
    format!("{}:{}:{}:{tail}:{symbols}", hex(record.path.as_bytes()), record.r#type, record.min_vaddr)
}
