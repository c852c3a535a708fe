//! Scans of a tray, which document 01 adds: the original's own functions, in the order of its refusals.

use crate::answer::{lent64, made_bits64, Answers, Part};
use crate::error;
use crate::places;
use crate::request::Fields;
use crate::scan_data::{read_flat_peaks, read_scan_srm_v66, Peak, ScanDataPacket};
use crate::scan_event::ScanEvent;
use crate::scan_format::ScanDataFormat;
use crate::scan_index::ScanIndexEntry;
use crate::{put_entry, put_event, reader_at, EventSlices};
use std::io::Cursor;

/// Where the run starts in a tray.
const RUN: usize = 32;

const MOST_SCANS: u32 = 4096;

/// Document 01's number, and for 1 the part that ran out.
pub enum Refusal {
    RanOut(Part),
    Number(u32),
}

const FLAT_WORD: Refusal = Refusal::Number(5);
const TOO_MANY_SCANS: Refusal = Refusal::Number(6);
const NO_SUCH_SCAN: Refusal = Refusal::Number(7);
pub const TOO_SHORT: Refusal = Refusal::Number(8);

impl Refusal {
    /// What a refused read is in a part.
    fn of(error: &error::Error, part: Part) -> Self {
        match error.number() {
            1 => Self::RanOut(part),
            number => Self::Number(number),
        }
    }

    pub fn number(&self) -> u32 {
        match self {
            Self::RanOut(_) => 1,
            Self::Number(number) => *number,
        }
    }

    /// 0 unless the refusal is 1.
    pub fn part(&self) -> u32 {
        match self {
            Self::RanOut(part) => *part as u32,
            Self::Number(_) => 0,
        }
    }
}

pub trait InPart<T> {
    fn in_part(self, part: Part) -> Result<T, Refusal>;
}

impl<T> InPart<T> for error::Result<T> {
    fn in_part(self, part: Part) -> Result<T, Refusal> {
        self.map_err(|error| Refusal::of(&error, part))
    }
}

/// A tray whose header is not refused.
pub struct Tray<'a> {
    pub version: u32,
    flat: bool,
    primary: usize,
    dependent: usize,
    pub scans: u32,
    index: u64,
    events: u64,
    data: u64,
    run: &'a [u8],
}

/// A scan as the original's functions read it. Nothing is lent for it yet.
pub struct Scan {
    entry: ScanIndexEntry,
    pub event: ScanEvent,
    /// The place behind the event.
    event_end: u64,
    pub pairs: Vec<(f64, f64)>,
}

impl<'a> Tray<'a> {
    pub fn open(tray: &'a [u8]) -> Result<Self, Refusal> {
        let words = header_words(tray).in_part(Part::Header)?;
        let [version, flat, primary, dependent, scans, index, events, data] = words;
        if flat > 1 {
            return Err(FLAT_WORD);
        }
        if scans > MOST_SCANS {
            return Err(TOO_MANY_SCANS);
        }
        Ok(Self {
            version,
            flat: flat == 1,
            primary: primary as usize,
            dependent: dependent as usize,
            scans,
            index: u64::from(index),
            events: u64::from(events),
            data: u64::from(data),
            run: &tray[RUN..],
        })
    }

    pub fn format(&self) -> ScanDataFormat {
        ScanDataFormat::detect(self.version, self.flat)
    }

    /// Scan k. Its event is the one at a place, if one is given, else the k-th from the events' offset on.
    pub fn scan(&self, k: u32, event_at: Option<u64>) -> Result<Scan, Refusal> {
        if k >= self.scans {
            return Err(NO_SUCH_SCAN);
        }
        let entry = self.entry(k).in_part(Part::Index)?;
        let (event, event_end) = match event_at {
            Some(place) => self.event(place, 0),
            None => self.event(self.events, k),
        }
        .in_part(Part::Event)?;
        let pairs = self.pairs(&entry, &event).in_part(Part::Data)?;
        Ok(Scan {
            entry,
            event,
            event_end,
            pairs,
        })
    }

    /// The place of event k in the run.
    pub fn event_place(&self, k: u32) -> Result<u64, Refusal> {
        if k >= self.scans {
            return Err(NO_SUCH_SCAN);
        }
        self.behind_events(self.events, k)
    }

    /// The place behind the event at a place.
    pub fn behind_event(&self, place: u64) -> Result<u64, Refusal> {
        self.behind_events(place, 1)
    }

    fn behind_events(&self, place: u64, count: u32) -> Result<u64, Refusal> {
        let sizes = (self.primary, self.dependent);
        places::behind_events(self.run, place, count, self.version, sizes).in_part(Part::Event)
    }

    fn entry(&self, k: u32) -> error::Result<ScanIndexEntry> {
        let size = ScanIndexEntry::min_size_for_version(self.version);
        let place = self.index + u64::from(k) * size;
        ScanIndexEntry::read(&mut reader_at(self.run, place), self.version)
    }

    /// The event behind so many others from a place on, and the place behind it.
    fn event(&self, place: u64, others: u32) -> error::Result<(ScanEvent, u64)> {
        let mut reader = reader_at(self.run, place);
        for _ in 0..others {
            ScanEvent::read(&mut reader, self.version, self.primary, self.dependent)?;
        }
        let event = ScanEvent::read(&mut reader, self.version, self.primary, self.dependent)?;
        Ok((event, reader.position()))
    }

    fn pairs(&self, entry: &ScanIndexEntry, event: &ScanEvent) -> error::Result<Vec<(f64, f64)>> {
        let source = &mut Cursor::new(self.run);
        match self.format() {
            ScanDataFormat::PacketHeader => {
                let place = self.data.saturating_add(entry.offset);
                let packet = ScanDataPacket::read(&mut reader_at(self.run, place))?;
                // There is a profile exactly if its size is not 0.
                Ok(match &packet.profile {
                    Some(profile) => profile.to_mz_intensity(event.coefficients()),
                    None => widened(&packet.peaks),
                })
            }
            ScanDataFormat::FlatV63 => {
                read_flat_peaks(source, self.data, entry.offset, entry.data_size)
                    .map(|peaks| widened(&peaks))
            }
            ScanDataFormat::FlatV66 => {
                read_scan_srm_v66(source, self.data, entry.offset, entry.data_size)
                    .map(|peaks| widened(&peaks))
            }
        }
    }
}

fn header_words(tray: &[u8]) -> error::Result<[u32; 8]> {
    let mut reader = reader_at(tray, 0);
    let mut words = [0; 8];
    for word in &mut words {
        *word = reader.read_u32()?;
    }
    Ok(words)
}

fn widened(peaks: &[Peak]) -> Vec<(f64, f64)> {
    peaks
        .iter()
        .map(|peak| (peak.mz, f64::from(peak.abundance)))
        .collect()
}

/// The slices lent for a scan. Those of floats hold their bits.
struct ScanSlices {
    event: EventSlices,
    masses: Vec<u64>,
    intensities: Vec<u64>,
}

impl ScanSlices {
    /// The fields P, Q, R, C, M and I.
    fn lent(fields: &mut Fields) -> Option<Self> {
        Some(Self {
            event: EventSlices::lent(fields)?,
            masses: lent64(fields.lent_elements()?),
            intensities: lent64(fields.lent_elements()?),
        })
    }

    fn hold(&self, scan: &Scan) -> bool {
        self.event.hold(&scan.event)
            && self.masses.len() >= scan.pairs.len()
            && self.intensities.len() >= scan.pairs.len()
    }

    /// Fills slices that hold the scan.
    fn fill(&mut self, scan: &Scan) {
        self.event.fill(&scan.event);
        for (at, (mz, intensity)) in scan.pairs.iter().enumerate() {
            self.masses[at] = made_bits64(*mz);
            self.intensities[at] = made_bits64(*intensity);
        }
    }

    fn put<'a>(&self, out: &'a mut Answers) -> &'a mut Answers {
        self.event
            .put(out)
            .slice64(&self.masses)
            .slice64(&self.intensities)
    }
}

pub fn scan(fields: &mut Fields, out: &mut Answers) -> Option<()> {
    let k = fields.u32()?;
    scan_by(fields, out, k, None)
}

pub fn scan_from(fields: &mut Fields, out: &mut Answers) -> Option<()> {
    let k = fields.u32()?;
    let place = fields.u64()?;
    scan_by(fields, out, k, Some(place))
}

/// The fields from P on, and the answer.
fn scan_by(fields: &mut Fields, out: &mut Answers, k: u32, event_at: Option<u64>) -> Option<()> {
    let mut slices = ScanSlices::lent(fields)?;
    let tray = fields.bytes()?;
    fields.end()?;
    match Tray::open(&tray).and_then(|tray| tray.scan(k, event_at)) {
        Err(refusal) => put_refusal(out, &refusal),
        Ok(scan) if !slices.hold(&scan) => put_refusal(out, &TOO_SHORT),
        Ok(scan) => {
            slices.fill(&scan);
            put_entry(out.ok(), &scan.entry);
            put_event(out, &scan.event)
                .number(scan.event_end)
                .number(scan.pairs.len())
        }
    };
    slices.put(out);
    Some(())
}

pub fn put_refusal<'a>(out: &'a mut Answers, refusal: &Refusal) -> &'a mut Answers {
    out.put("refused").number(refusal.number());
    match refusal {
        Refusal::RanOut(part) => out.number(*part as u32),
        Refusal::Number(_) => out,
    }
}
