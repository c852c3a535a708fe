//! Writing index entries and events below version 66, which document 02's L3 adds. The original has no writer: what is refused and
//! what is written comes from the request's text, and the original's readers say whether the bytes give the same record.

use crate::answer::{lent64, lent8, made_bits64, Answers, Part};
use crate::request::Fields;
use crate::scan_event::{Reaction, ScanEvent, ScanEventPreamble};
use crate::scan_index::ScanIndexEntry;
use crate::tray::{put_refusal, InPart, Refusal, TOO_SHORT};
use crate::{reader_at, Activation, EventSlices};

/// What the layout can't hold.
const NOT_HELD: Refusal = Refusal::Number(10);

const MOST_U16: u64 = u16::MAX as u64;
const MOST_U32: u64 = u32::MAX as u64;

/// Numbers in so many bytes each.
fn laid_out(numbers: &[(u64, usize)]) -> Vec<u8> {
    let mut bytes = Vec::new();
    for (number, size) in numbers {
        bytes.extend_from_slice(&number.to_le_bytes()[..*size]);
    }
    bytes
}

/// The answer of a writer, and as many bytes as are lent, with what it wrote at their front.
fn put_written(out: &mut Answers, written: Result<Vec<u8>, Refusal>, lent: usize) {
    let mut slice = lent8(lent);
    match written {
        Err(refusal) => put_refusal(out, &refusal),
        Ok(bytes) => match slice.get_mut(..bytes.len()) {
            None => put_refusal(out, &TOO_SHORT),
            Some(front) => {
                front.copy_from_slice(&bytes);
                out.ok().number(bytes.len())
            }
        },
    }
    .slice8(&slice);
}

// Entries

/// An entry's fields in the order of a request, those of floats as their bits.
type EntryNumbers = [u64; 11];

const MOST_OF_ENTRY: EntryNumbers = [
    MOST_U32,
    MOST_U16,
    MOST_U16,
    MOST_U32,
    u64::MAX,
    u64::MAX,
    u64::MAX,
    u64::MAX,
    u64::MAX,
    u64::MAX,
    u64::MAX,
];

fn entry_numbers(entry: &ScanIndexEntry) -> EntryNumbers {
    [
        u64::from(entry.index),
        u64::from(entry.scan_event),
        u64::from(entry.scan_segment),
        u64::from(entry.data_size),
        entry.start_time.to_bits(),
        entry.total_current.to_bits(),
        entry.base_intensity.to_bits(),
        entry.base_mz.to_bits(),
        entry.low_mz.to_bits(),
        entry.high_mz.to_bits(),
        entry.offset,
    ]
}

/// The fields of the entry at a place, and the place after it.
fn read_entry(version: u32, run: &[u8], place: u64) -> Result<(EntryNumbers, u64), Refusal> {
    let mut reader = reader_at(run, place);
    let entry = ScanIndexEntry::read(&mut reader, version).in_part(Part::Index)?;
    Ok((entry_numbers(&entry), reader.position()))
}

/// The bytes, if they are an entry of these fields and nothing more.
fn checked_entry(version: u32, numbers: EntryNumbers, bytes: Vec<u8>) -> Vec<u8> {
    match read_entry(version, &bytes, 0) {
        Ok(read) => assert_eq!(read, (numbers, bytes.len() as u64)),
        Err(_) => panic!("an entry of version {version} does not read back"),
    }
    bytes
}

fn entry_bytes(version: u32, numbers: EntryNumbers) -> Result<Vec<u8>, Refusal> {
    let [index, scan_event, scan_segment, data_size, floats @ .., offset] = numbers;
    if version < 64 && offset > MOST_U32 {
        return Err(NOT_HELD);
    }
    let mut words = vec![
        (if version < 64 { offset } else { 0 }, 4),
        (index, 4),
        (scan_event, 2),
        (scan_segment, 2),
        (0, 4),
        (0, 4),
        (data_size, 4),
    ];
    words.extend(floats.map(|bits| (bits, 8)));
    if version >= 64 {
        words.push((offset, 8));
    }
    if version >= 66 {
        words.extend([(0, 4), (0, 4)]);
    }
    Ok(checked_entry(version, numbers, laid_out(&words)))
}

pub fn write_entry(fields: &mut Fields, out: &mut Answers) -> Option<()> {
    let version = fields.u32()?;
    let lent = fields.lent_bytes()?;
    let numbers = fields.numbers(MOST_OF_ENTRY)?;
    fields.end()?;
    put_written(out, entry_bytes(version, numbers), lent);
    Some(())
}

/// The entry's own bytes with zeros in the words that are not kept.
fn rewritten_entry(version: u32, run: &[u8], place: u64) -> Result<Vec<u8>, Refusal> {
    let (numbers, end) = read_entry(version, run, place)?;
    let mut bytes = run[place as usize..end as usize].to_vec();
    bytes[12..20].fill(0);
    if version >= 64 {
        bytes[..4].fill(0);
    }
    if version >= 66 {
        bytes[80..].fill(0);
    }
    Ok(checked_entry(version, numbers, bytes))
}

pub fn rewrite_entry(fields: &mut Fields, out: &mut Answers) -> Option<()> {
    let version = fields.u32()?;
    let place = fields.u64()?;
    let lent = fields.lent_bytes()?;
    let run = fields.bytes()?;
    fields.end()?;
    put_written(out, rewritten_entry(version, &run, place), lent);
    Some(())
}

// Events

/// The eleven fields of a preamble in the numbers of a request: a code is 0 where it is none, else one more.
type Settings = [u64; 11];

/// The highest code that a record can hold, in these numbers.
const MOST_CODE: u64 = 1 << 32;
const MOST_ACTIVATION: u64 = 5 + 255;
const MOST_OF_SETTINGS: Settings = [
    MOST_CODE,
    MOST_CODE,
    MOST_CODE,
    MOST_CODE,
    1,
    1,
    MOST_CODE,
    MOST_ACTIVATION,
    255,
    1,
    MOST_CODE,
];

fn settings(preamble: &ScanEventPreamble) -> Settings {
    let number = |code: Option<u32>| code.map_or(0, |code| u64::from(code) + 1);
    [
        number(preamble.polarity().map(|v| v as u32)),
        number(preamble.scan_mode().map(|v| v as u32)),
        number(preamble.ms_power().map(|v| v as u32)),
        number(preamble.scan_type().map(|v| v as u32)),
        u64::from(preamble.is_dependent()),
        u64::from(preamble.is_dia()),
        number(preamble.ionization().map(|v| v as u32)),
        activation_number(preamble.activation()),
        u64::from(preamble.activation_byte()),
        u64::from(preamble.is_wideband()),
        number(preamble.analyzer().map(|v| v as u32)),
    ]
}

fn activation_number(activation: Option<Activation>) -> u64 {
    match activation {
        None => 0,
        Some(Activation::HCD) => 1,
        Some(Activation::CID) => 2,
        Some(Activation::ETD) => 3,
        Some(Activation::EThcD) => 4,
        Some(Activation::Unknown(byte)) => 5 + u64::from(byte),
    }
}

/// The activation of an event of this preamble and these precursors.
fn activation_by(preamble: ScanEventPreamble, precursors: &[u64]) -> u64 {
    let reactions = precursors.iter().map(|bits| Reaction {
        precursor_mz: f64::from_bits(*bits),
        energy: 0.0,
    });
    let event = ScanEvent {
        preamble,
        reactions: reactions.collect(),
        fraction_collectors: Vec::new(),
        coefficients: Vec::new(),
    };
    activation_number(event.activation())
}

/// An event's lists and fields, those of floats as their bits.
#[derive(Debug, PartialEq)]
struct EventNumbers {
    preamble: Vec<u8>,
    precursors: Vec<u64>,
    energies: Vec<u64>,
    ends: Vec<[u64; 2]>,
    coefficients: Vec<u64>,
    settings: Settings,
    activation: u64,
}

impl EventNumbers {
    fn of(event: &ScanEvent) -> Self {
        let reactions = event.reactions().iter();
        let windows = event.fraction_collectors().iter();
        let coefficients = event.coefficients().iter();
        Self {
            preamble: event.preamble().bytes().to_vec(),
            precursors: reactions
                .clone()
                .map(|r| r.precursor_mz().to_bits())
                .collect(),
            energies: reactions.map(|r| r.energy().to_bits()).collect(),
            ends: windows
                .map(|w| [w.low_mz().to_bits(), w.high_mz().to_bits()])
                .collect(),
            coefficients: coefficients.map(|c| c.to_bits()).collect(),
            settings: settings(event.preamble()),
            activation: activation_number(event.activation()),
        }
    }

    fn bytes(&self) -> Vec<u8> {
        let mut words = vec![(self.precursors.len() as u64, 4)];
        for (precursor, energy) in self.precursors.iter().zip(&self.energies) {
            words.extend([(*precursor, 8), (0, 8), (*energy, 8), (0, 8)]);
        }
        words.push((0, 4));
        words.extend(self.ends.iter().flatten().map(|bits| (*bits, 8)));
        words.push((self.coefficients.len() as u64, 4));
        words.extend(self.coefficients.iter().map(|bits| (*bits, 8)));
        words.extend([(0, 4), (0, 4)]);
        [self.preamble.clone(), laid_out(&words)].concat()
    }
}

/// The bytes, if they are an event of these fields and nothing more.
fn checked_event(version: u32, numbers: &EventNumbers, bytes: Vec<u8>) -> Vec<u8> {
    let mut reader = reader_at(&bytes, 0);
    match ScanEvent::read(&mut reader, version, 0, 0) {
        Ok(event) => assert_eq!(EventNumbers::of(&event), *numbers),
        Err(error) => panic!("an event of version {version} does not read back: {error:?}"),
    }
    assert_eq!(reader.position(), bytes.len() as u64);
    bytes
}

/// An event's record as it is handed to the writer, and the slices beside it.
struct Record {
    counts: [u64; 3],
    has_window: bool,
    window: [u64; 2],
    ends: [u64; 2],
    settings: Settings,
    activation: u64,
    preamble: Vec<u8>,
    precursors: Vec<u64>,
    energies: Vec<u64>,
    coefficients: Vec<u64>,
}

/// The elements that a record counts, if the slice has as many.
fn counted<T>(slice: &[T], count: u64) -> Option<&[T]> {
    slice.get(..usize::try_from(count).ok()?)
}

impl Record {
    /// The fields from P on.
    fn given(fields: &mut Fields) -> Option<Self> {
        Some(Self {
            counts: fields.numbers([u64::MAX; 3])?,
            has_window: fields.flag()?,
            window: fields.numbers([u64::MAX; 2])?,
            ends: fields.numbers([u64::MAX; 2])?,
            settings: fields.numbers(MOST_OF_SETTINGS)?,
            activation: fields.number(MOST_ACTIVATION)?,
            preamble: fields.preamble()?,
            precursors: fields.u64s()?,
            energies: fields.u64s()?,
            coefficients: fields.u64s()?,
        })
    }

    /// Whether the layout of a version holds the record. What the slices are too short for is not judged here.
    fn is_held(&self, version: u32) -> bool {
        let [length, reactions, coefficients] = self.counts;
        // As floats, of which there is one NaN.
        let values = |bits: [u64; 2]| bits.map(|bits| made_bits64(f64::from_bits(bits)));
        version < 66
            && length == ScanEventPreamble::size_for_version(version) as u64
            && self.has_window
            && values(self.window) == values(self.ends)
            && reactions <= MOST_U32
            && coefficients <= MOST_U32
            && self.agrees_with_preamble(length, reactions)
    }

    fn agrees_with_preamble(&self, length: u64, reactions: u64) -> bool {
        let Some(bytes) = counted(&self.preamble, length) else {
            return true;
        };
        let preamble = ScanEventPreamble {
            bytes: bytes.to_vec(),
        };
        settings(&preamble) == self.settings
            && counted(&self.precursors, reactions).map_or(true, |precursors| {
                activation_by(preamble, precursors) == self.activation
            })
    }

    /// The event that the record and its slices are, if these are long enough: so few bytes are laid out, whatever is counted.
    fn event(&self) -> Option<EventNumbers> {
        let [length, reactions, coefficients] = self.counts;
        Some(EventNumbers {
            preamble: counted(&self.preamble, length)?.to_vec(),
            precursors: counted(&self.precursors, reactions)?.to_vec(),
            energies: counted(&self.energies, reactions)?.to_vec(),
            ends: vec![self.ends],
            coefficients: counted(&self.coefficients, coefficients)?.to_vec(),
            settings: self.settings,
            activation: self.activation,
        })
    }

    fn written(&self, version: u32) -> Result<Vec<u8>, Refusal> {
        if !self.is_held(version) {
            return Err(NOT_HELD);
        }
        let event = self.event().ok_or(TOO_SHORT)?;
        Ok(checked_event(version, &event, event.bytes()))
    }
}

pub fn write_event(fields: &mut Fields, out: &mut Answers) -> Option<()> {
    let version = fields.u32()?;
    let lent = fields.lent_bytes()?;
    let record = Record::given(fields)?;
    fields.end()?;
    put_written(out, record.written(version), lent);
    Some(())
}

/// The event's own bytes with zeros in the words that are not kept.
fn rewritten_event(version: u32, run: &[u8], place: u64) -> Result<Vec<u8>, Refusal> {
    // As many elements as a request can lend.
    let slices = EventSlices {
        preamble: lent8(256),
        precursors: lent64(64),
        energies: lent64(64),
        coefficients: lent64(64),
    };
    let mut reader = reader_at(run, place);
    let event = ScanEvent::read(&mut reader, version, 0, 0).in_part(Part::Event)?;
    if !slices.hold(&event) {
        return Err(TOO_SHORT);
    }
    if version >= 66 {
        return Err(NOT_HELD);
    }
    let mut bytes = run[place as usize..reader.position() as usize].to_vec();
    let mut at = event.preamble().bytes().len() + 4;
    for _ in event.reactions() {
        bytes[at + 8..at + 16].fill(0);
        bytes[at + 24..at + 32].fill(0);
        at += 32;
    }
    bytes[at..at + 4].fill(0);
    let last = bytes.len() - 8;
    bytes[last..].fill(0);
    Ok(checked_event(version, &EventNumbers::of(&event), bytes))
}

pub fn rewrite_event(fields: &mut Fields, out: &mut Answers) -> Option<()> {
    let version = fields.u32()?;
    let place = fields.u64()?;
    let lent = fields.lent_bytes()?;
    let run = fields.bytes()?;
    fields.end()?;
    put_written(out, rewritten_event(version, &run, place), lent);
    Some(())
}
