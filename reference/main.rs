//! The reference: reads the requests of docs/REQUESTS.md from standard input and answers them by the functions of
//! OpenTFRaw, whose files are built unchanged over a reader written from document 01. Called with the word `listing` or
//! `listing-one` it lists trays instead.

#![allow(dead_code, unused_imports)]

mod bytes;
mod reader;
mod scan_data;
mod scan_event;
mod scan_format;
mod scan_index;
mod types;

pub use types::*;

mod answer;
mod error;
mod listing;
mod packets;
mod pairs;
mod places;
mod records;
mod request;
mod searches;
mod tray;
mod writing;

// Files that reader.rs names but that are not at hand.
mod error_log {
    pub struct ErrorEntry;
}
mod generic_data {
    pub struct GenericDataHeader;
    pub struct GenericRecord;
    pub struct GenericValue;
}
mod header {
    pub struct FileHeader;
}
mod raw_file_info {
    pub struct RawFileInfo;
}
mod run_header {
    pub struct RunHeader;
}
mod seq_row {
    pub struct SeqRow;
}

use answer::{lent64, lent8, Answers, Part};
use reader::BinaryReader;
use request::Fields;
use scan_event::{ScanEvent, ScanEventPreamble};
use scan_format::ScanDataFormat;
use scan_index::ScanIndexEntry;
use std::io::{BufRead, Cursor, Write};

/// The longest request, without its line feed.
const LONGEST_LINE: usize = 65536;

/// How many bytes of answers are gathered before they are written.
const FULL: usize = 1 << 20;

fn main() -> std::io::Result<()> {
    let input = std::io::stdin().lock();
    let mut output = std::io::BufWriter::new(std::io::stdout().lock());
    let words: Vec<String> = std::env::args().skip(1).collect();
    match words.iter().map(String::as_str).collect::<Vec<_>>()[..] {
        [] => answer_all(input, &mut output)?,
        ["listing"] => listing::list_many(input, &mut output)?,
        ["listing-one"] => listing::list_one(input, &mut output)?,
        _ => {
            eprintln!("reference: no such words; there are `listing` and `listing-one`");
            std::process::exit(2)
        }
    }
    output.flush()
}

fn answer_all(mut requests: impl BufRead, mut output: impl Write) -> std::io::Result<()> {
    let mut answers = Answers::new();
    let mut line = Vec::new();
    while requests.read_until(b'\n', &mut line)? > 0 {
        if answer(line.strip_suffix(b"\n").unwrap_or(&line), &mut answers).is_none() {
            answers.put("?");
        }
        answers.put("\n");
        if answers.text().len() >= FULL {
            output.write_all(answers.text())?;
            answers.clear();
        }
        line.clear();
    }
    output.write_all(answers.text())
}

/// `None` if the line is no request. Each function takes all its fields before it answers.
fn answer(line: &[u8], out: &mut Answers) -> Option<()> {
    if line.len() > LONGEST_LINE {
        return None;
    }
    let mut fields = Fields::new(line);
    let request = match fields.field()? {
        b"word" => word,
        b"f64" => float64,
        b"f32" => float32,
        b"code" => code,
        b"name" => name,
        b"symbol" => symbol,
        b"activation" => activation,
        b"activation_name" => activation_name,
        b"fixed_size" => fixed_size,
        b"format" => format,
        b"display_name" => display_name,
        b"preamble_size" => preamble_size,
        b"entry_size" => entry_size,
        b"entry" => entry,
        b"preamble" => preamble,
        b"event" => event,
        b"counted" => counted,
        b"packet_header" => packets::packet_header,
        b"peaks" => packets::peaks,
        b"skip_profile" => packets::skip_profile,
        b"packet" => packets::packet,
        b"narrow" => packets::narrow,
        b"noise" => packets::noise,
        b"labels" => packets::labels,
        b"packet_noise" => packets::packet_noise,
        b"packet_labels" => packets::packet_labels,
        b"flat" => records::flat,
        b"srm" => records::srm,
        b"srm_windows" => records::srm_windows,
        b"freq_to_mz" => pairs::freq_to_mz,
        b"pairs" => pairs::pairs,
        b"v63" => searches::v63,
        b"event_transition" => searches::event_transition,
        b"channels" => searches::channels,
        b"scan" => tray::scan,
        b"scan_from" => tray::scan_from,
        b"event_end" => places::event_end,
        b"event_place" => places::event_place,
        b"event_of" => places::event_of,
        b"next_event" => places::next_event,
        b"find_flat" => places::find_flat,
        b"find_srm" => places::find_srm,
        b"find_places" => places::find_places,
        b"find_data" => places::find_data,
        b"ten_thousandths" => ten_thousandths,
        b"listed" => listing::listed,
        b"counted_list" => counted_list,
        b"write_entry" => writing::write_entry,
        b"rewrite_entry" => writing::rewrite_entry,
        b"write_event" => writing::write_event,
        b"rewrite_event" => writing::rewrite_event,
        _ => return None,
    };
    request(&mut fields, out)
}

// bytes.rs and the reader

fn reader_at(bytes: &[u8], place: u64) -> BinaryReader<Cursor<&[u8]>> {
    let mut source = Cursor::new(bytes);
    source.set_position(place);
    BinaryReader::new(source)
}

fn word(fields: &mut Fields, out: &mut Answers) -> Option<()> {
    let size = fields.number(8)?;
    let place = fields.u64()?;
    let bytes = fields.bytes()?;
    fields.end()?;
    // bytes.rs adds the size to the place unchecked.
    let start = place.checked_add(size).map(|_| place as usize);
    let number = match size {
        1 => reader_at(&bytes, place).read_u8().ok().map(u64::from),
        2 => reader_at(&bytes, place).read_u16().ok().map(u64::from),
        4 => start
            .and_then(|start| bytes::read_u32_le(&bytes, start).ok())
            .map(u64::from),
        8 => start
            .and_then(|start| bytes::read_f64_le(&bytes, start).ok())
            .map(f64::to_bits),
        _ => return None,
    };
    out.number_or_none(number);
    Some(())
}

/// A count of four bytes, and whether the bytes left hold so many of a size: the reader's own refusal 1 names no part.
fn counted_list(fields: &mut Fields, out: &mut Answers) -> Option<()> {
    let size = fields.u64()?;
    let place = fields.u64()?;
    let bytes = fields.bytes()?;
    fields.end()?;
    let mut reader = reader_at(&bytes, place);
    let count = reader.read_u32().and_then(|count| {
        reader.check_count(u64::from(count), size)?;
        Ok(count)
    });
    match count {
        Err(error) => out.put("refused").number(error.number()),
        Ok(count) => out.ok().number(count).number(reader.position()),
    };
    Some(())
}

fn ten_thousandths(fields: &mut Fields, out: &mut Answers) -> Option<()> {
    let mz = f64::from_bits(fields.u64()?);
    fields.end()?;
    match listing::ten_thousandths(mz) {
        None => out.put("refused 9"),
        Some(number) => out.ok().number(number),
    };
    Some(())
}

fn float64(fields: &mut Fields, out: &mut Answers) -> Option<()> {
    let value = f64::from_bits(fields.u64()?);
    fields.end()?;
    out.ok()
        .flag(value.is_nan())
        .flag(value.is_finite())
        .bits64(value.to_bits());
    Some(())
}

fn float32(fields: &mut Fields, out: &mut Answers) -> Option<()> {
    let value = f32::from_bits(fields.u32()?);
    fields.end()?;
    out.ok()
        .flag(value.is_nan())
        .flag(value.is_finite())
        .bits32(value.to_bits())
        .made64(value as f64);
    Some(())
}

// types.rs

/// A value of a code family, if the family knows the code.
enum Code {
    Analyzer(Option<Analyzer>),
    Polarity(Option<Polarity>),
    ScanMode(Option<ScanMode>),
    MsPower(Option<MsPower>),
    ScanType(Option<ScanType>),
    Ionization(Option<Ionization>),
    GenericType(Option<GenericType>),
}

/// The fields FAMILY and VALUE.
fn family_and_value(fields: &mut Fields) -> Option<Code> {
    Some(match fields.number(6)? {
        0 => Code::Analyzer(Analyzer::from_byte(fields.u8()?)),
        1 => Code::Polarity(Polarity::from_byte(fields.u8()?)),
        2 => Code::ScanMode(ScanMode::from_byte(fields.u8()?)),
        3 => Code::MsPower(MsPower::from_byte(fields.u8()?)),
        4 => Code::ScanType(ScanType::from_byte(fields.u8()?)),
        5 => Code::Ionization(Ionization::from_byte(fields.u8()?)),
        _ => Code::GenericType(GenericType::from_u32(fields.u32()?)),
    })
}

fn code(fields: &mut Fields, out: &mut Answers) -> Option<()> {
    let code = family_and_value(fields)?;
    fields.end()?;
    out.number_or_none(match code {
        Code::Analyzer(value) => value.map(|v| v as u32),
        Code::Polarity(value) => value.map(|v| v as u32),
        Code::ScanMode(value) => value.map(|v| v as u32),
        Code::MsPower(value) => value.map(|v| v as u32),
        Code::ScanType(value) => value.map(|v| v as u32),
        Code::Ionization(value) => value.map(|v| v as u32),
        Code::GenericType(value) => value.map(|v| v as u32),
    });
    Some(())
}

fn name(fields: &mut Fields, out: &mut Answers) -> Option<()> {
    let code = family_and_value(fields)?;
    let lent = fields.lent_text()?;
    fields.end()?;
    let name = match code {
        Code::Analyzer(value) => value.map(|v| v.as_str()),
        Code::ScanMode(value) => value.map(|v| v.as_str()),
        Code::Ionization(value) => value.map(|v| v.as_str()),
        _ => None,
    };
    out.name(name, lent);
    Some(())
}

fn symbol(fields: &mut Fields, out: &mut Answers) -> Option<()> {
    let code = family_and_value(fields)?;
    fields.end()?;
    let symbol = match code {
        Code::Polarity(value) => value.map(|v| v.symbol()),
        Code::ScanMode(value) => value.map(|v| v.symbol()),
        _ => None,
    };
    out.number_or_none(symbol.map(u32::from));
    Some(())
}

fn activation(fields: &mut Fields, out: &mut Answers) -> Option<()> {
    let byte = fields.u8()?;
    fields.end()?;
    match Activation::from_byte(byte) {
        None => out.none(),
        Some(Activation::HCD) => out.ok().number(1),
        Some(Activation::CID) => out.ok().number(2),
        Some(Activation::ETD) => out.ok().number(3),
        Some(Activation::EThcD) => out.ok().number(4),
        Some(Activation::Unknown(byte)) => out.ok().number(5).number(byte),
    };
    Some(())
}

fn activation_name(fields: &mut Fields, out: &mut Answers) -> Option<()> {
    let activation = match fields.number(5)? {
        0 => None,
        1 => Some(Activation::HCD),
        2 => Some(Activation::CID),
        3 => Some(Activation::ETD),
        4 => Some(Activation::EThcD),
        // The name does not depend on the byte.
        _ => Some(Activation::Unknown(0)),
    };
    let lent = fields.lent_text()?;
    fields.end()?;
    out.name(activation.map(|a| a.as_str()), lent);
    Some(())
}

fn fixed_size(fields: &mut Fields, out: &mut Answers) -> Option<()> {
    let value = fields.u32()?;
    fields.end()?;
    out.number_or_none(GenericType::from_u32(value).and_then(|g| g.fixed_size()));
    Some(())
}

// scan_format.rs

fn format(fields: &mut Fields, out: &mut Answers) -> Option<()> {
    let version = fields.u32()?;
    let flat = fields.flag()?;
    fields.end()?;
    let format = ScanDataFormat::detect(version, flat);
    let number = match format {
        ScanDataFormat::PacketHeader => 0,
        ScanDataFormat::FlatV63 => 1,
        ScanDataFormat::FlatV66 => 2,
    };
    out.ok().number(number).flag(format.is_flat());
    Some(())
}

fn display_name(fields: &mut Fields, out: &mut Answers) -> Option<()> {
    let format = fields.format()?;
    let lent = fields.lent_text()?;
    fields.end()?;
    out.name(Some(format.display_name()), lent);
    Some(())
}

// scan_event.rs

fn preamble_size(fields: &mut Fields, out: &mut Answers) -> Option<()> {
    let version = fields.u32()?;
    fields.end()?;
    out.ok()
        .number(ScanEventPreamble::size_for_version(version));
    Some(())
}

fn preamble(fields: &mut Fields, out: &mut Answers) -> Option<()> {
    let bytes = fields.bytes()?;
    fields.end()?;
    put_settings(out.ok(), &ScanEventPreamble { bytes });
    Some(())
}

/// The eleven fields of a preamble.
fn put_settings<'a>(out: &'a mut Answers, preamble: &ScanEventPreamble) -> &'a mut Answers {
    out.number_or_dash(preamble.polarity().map(|v| v as u32))
        .number_or_dash(preamble.scan_mode().map(|v| v as u32))
        .number_or_dash(preamble.ms_power().map(|v| v as u32))
        .number_or_dash(preamble.scan_type().map(|v| v as u32))
        .flag(preamble.is_dependent())
        .flag(preamble.is_dia())
        .number_or_dash(preamble.ionization().map(|v| v as u32));
    put_activation(out, preamble.activation())
        .number(preamble.activation_byte())
        .flag(preamble.is_wideband())
        .number_or_dash(preamble.analyzer().map(|v| v as u32))
}

/// An activation as one field.
fn put_activation(out: &mut Answers, activation: Option<Activation>) -> &mut Answers {
    match activation {
        None => out.number(0),
        Some(Activation::HCD) => out.number(1),
        Some(Activation::CID) => out.number(2),
        Some(Activation::ETD) => out.number(3),
        Some(Activation::EThcD) => out.number(4),
        Some(Activation::Unknown(byte)) => out.number(format_args!("5:{byte}")),
    }
}

/// The slices lent for an event. Those of floats hold their bits.
struct EventSlices {
    preamble: Vec<u8>,
    precursors: Vec<u64>,
    energies: Vec<u64>,
    coefficients: Vec<u64>,
}

impl EventSlices {
    /// The fields P, Q, R and C.
    fn lent(fields: &mut Fields) -> Option<Self> {
        Some(Self {
            preamble: lent8(fields.lent_preamble()?),
            precursors: lent64(fields.lent_elements()?),
            energies: lent64(fields.lent_elements()?),
            coefficients: lent64(fields.lent_elements()?),
        })
    }

    fn hold(&self, event: &ScanEvent) -> bool {
        self.preamble.len() >= event.preamble().bytes().len()
            && self.precursors.len() >= event.reactions().len()
            && self.energies.len() >= event.reactions().len()
            && self.coefficients.len() >= event.coefficients().len()
    }

    /// Fills slices that hold the event.
    fn fill(&mut self, event: &ScanEvent) {
        let bytes = event.preamble().bytes();
        self.preamble[..bytes.len()].copy_from_slice(bytes);
        for (at, reaction) in event.reactions().iter().enumerate() {
            self.precursors[at] = reaction.precursor_mz().to_bits();
            self.energies[at] = reaction.energy().to_bits();
        }
        for (at, coefficient) in event.coefficients().iter().enumerate() {
            self.coefficients[at] = coefficient.to_bits();
        }
    }

    fn put<'a>(&self, out: &'a mut Answers) -> &'a mut Answers {
        out.slice8(&self.preamble)
            .slice64(&self.precursors)
            .slice64(&self.energies)
            .slice64(&self.coefficients)
    }
}

fn event(fields: &mut Fields, out: &mut Answers) -> Option<()> {
    let version = fields.u32()?;
    let primary = fields.u32()? as usize;
    let dependent = fields.u32()? as usize;
    event_by(fields, out, |reader| {
        ScanEvent::read(reader, version, primary, dependent)
    })
}

fn counted(fields: &mut Fields, out: &mut Answers) -> Option<()> {
    let size = fields.u32()? as usize;
    event_by(fields, out, |reader| {
        ScanEvent::read_counted_v66(reader, size)
    })
}

/// The fields from PLACE on, and the answer by either function.
fn event_by<F>(fields: &mut Fields, out: &mut Answers, read: F) -> Option<()>
where
    F: FnOnce(&mut BinaryReader<Cursor<&[u8]>>) -> error::Result<ScanEvent>,
{
    let place = fields.u64()?;
    let mut slices = EventSlices::lent(fields)?;
    let bytes = fields.bytes()?;
    fields.end()?;
    let mut reader = reader_at(&bytes, place);
    match read(&mut reader) {
        Err(error) => out.refused(&error, Part::Event),
        Ok(event) if !slices.hold(&event) => out.too_short(),
        Ok(event) => {
            slices.fill(&event);
            put_event(out.ok(), &event).number(reader.position())
        }
    };
    slices.put(out);
    Some(())
}

/// The fields of an event up to its activation.
fn put_event<'a>(out: &'a mut Answers, event: &ScanEvent) -> &'a mut Answers {
    out.number(event.preamble().bytes().len())
        .number(event.reactions().len())
        .number(event.coefficients().len());
    // The Rust reads one window or none.
    match event.fraction_collectors() {
        [] => out.flag(false).bits64(0).bits64(0).bits64(0).bits64(0),
        [window] => out
            .flag(true)
            .made64(window.low_mz())
            .made64(window.high_mz())
            .bits64(window.low_mz().to_bits())
            .bits64(window.high_mz().to_bits()),
        windows => panic!("{} windows", windows.len()),
    };
    put_settings(out, event.preamble());
    put_activation(out, event.activation())
}

// scan_index.rs

fn entry_size(fields: &mut Fields, out: &mut Answers) -> Option<()> {
    let version = fields.u32()?;
    fields.end()?;
    out.ok()
        .number(ScanIndexEntry::min_size_for_version(version));
    Some(())
}

fn entry(fields: &mut Fields, out: &mut Answers) -> Option<()> {
    let version = fields.u32()?;
    let place = fields.u64()?;
    let bytes = fields.bytes()?;
    fields.end()?;
    match ScanIndexEntry::read(&mut reader_at(&bytes, place), version) {
        Err(error) => out.refused(&error, Part::Index),
        Ok(entry) => put_entry(out.ok(), &entry),
    };
    Some(())
}

fn put_entry<'a>(out: &'a mut Answers, entry: &ScanIndexEntry) -> &'a mut Answers {
    out.number(entry.index)
        .number(entry.scan_event)
        .number(entry.scan_segment)
        .number(entry.data_size)
        .bits64(entry.start_time.to_bits())
        .bits64(entry.total_current.to_bits())
        .bits64(entry.base_intensity.to_bits())
        .bits64(entry.base_mz.to_bits())
        .bits64(entry.low_mz.to_bits())
        .bits64(entry.high_mz.to_bits())
        .number(entry.offset)
}
