//! Places in a run: what the decoder's `find_*` functions and its walk over events answer. The original answers values and
//! no places, so these are worked out from what it read: forward by its reader's position, or backward from the end of what
//! it read, by how many values it found.

use crate::answer::{Answers, Part};
use crate::error;
use crate::packets::put_header;
use crate::reader_at;
use crate::request::Fields;
use crate::scan_data::{read_flat_peaks, read_scan_srm_v66, ScanDataPacket};
use crate::scan_event::ScanEvent;
use crate::scan_format::ScanDataFormat;
use crate::tray::{put_refusal, Tray};
use std::io::Cursor;

fn put_place<'a>(
    out: &'a mut Answers,
    place: error::Result<u64>,
    part: Part,
) -> &'a mut Answers {
    match place {
        Err(error) => out.refused(&error, part),
        Ok(place) => out.ok().number(place),
    }
}

/// The place behind so many events from a place on.
pub fn behind_events(
    run: &[u8],
    place: u64,
    count: u32,
    version: u32,
    sizes: (usize, usize),
) -> error::Result<u64> {
    let mut reader = reader_at(run, place);
    for _ in 0..count {
        ScanEvent::read(&mut reader, version, sizes.0, sizes.1)?;
    }
    Ok(reader.position())
}

fn version_and_sizes(fields: &mut Fields) -> Option<(u32, (usize, usize))> {
    Some((
        fields.u32()?,
        (fields.u32()? as usize, fields.u32()? as usize),
    ))
}

pub fn event_end(fields: &mut Fields, out: &mut Answers) -> Option<()> {
    let (version, sizes) = version_and_sizes(fields)?;
    let place = fields.u64()?;
    let run = fields.bytes()?;
    fields.end()?;
    put_place(out, behind_events(&run, place, 1, version, sizes), Part::Event);
    Some(())
}

pub fn event_place(fields: &mut Fields, out: &mut Answers) -> Option<()> {
    let (version, sizes) = version_and_sizes(fields)?;
    let place = fields.u64()?;
    let k = fields.u16()?;
    let run = fields.bytes()?;
    fields.end()?;
    let found = behind_events(&run, place, u32::from(k), version, sizes);
    put_place(out, found, Part::Event);
    Some(())
}

pub fn event_of(fields: &mut Fields, out: &mut Answers) -> Option<()> {
    let k = fields.u32()?;
    let tray = fields.bytes()?;
    fields.end()?;
    match Tray::open(&tray).and_then(|tray| tray.event_place(k)) {
        Err(refusal) => put_refusal(out, &refusal),
        Ok(place) => out.ok().number(place),
    };
    Some(())
}

pub fn next_event(fields: &mut Fields, out: &mut Answers) -> Option<()> {
    let place = fields.u64()?;
    let tray = fields.bytes()?;
    fields.end()?;
    match Tray::open(&tray).and_then(|tray| tray.behind_event(place)) {
        Err(refusal) => put_refusal(out, &refusal),
        Ok(place) => out.ok().number(place),
    };
    Some(())
}

/// Where the first m/z of flat peaks stands, and how many there are. They and their flag bytes end the record.
fn flat_place(run: &[u8], data: u64, offset: u64, size: u32) -> error::Result<(u64, u64)> {
    let count = read_flat_peaks(&mut Cursor::new(run), data, offset, size)?.len() as u64;
    Ok((data.saturating_add(offset) - 9 * count, count))
}

/// The same of an SRM scan: a head of 32 bytes, 8 for each window, and a word before each peak.
fn srm_place(run: &[u8], data: u64, offset: u64) -> error::Result<(u64, u64)> {
    let count = read_scan_srm_v66(&mut Cursor::new(run), data, offset, 0)?.len() as u64;
    Ok((data.saturating_add(offset) + 32 + 8 * count + 4, count))
}

fn put_row<'a>(out: &'a mut Answers, found: error::Result<(u64, u64)>) -> &'a mut Answers {
    match found {
        Err(error) => out.refused(&error, Part::Data),
        Ok((place, count)) => out.ok().number(place).number(count),
    }
}

pub fn find_flat(fields: &mut Fields, out: &mut Answers) -> Option<()> {
    let data = fields.u64()?;
    let offset = fields.u64()?;
    let size = fields.u32()?;
    let run = fields.bytes()?;
    fields.end()?;
    put_row(out, flat_place(&run, data, offset, size));
    Some(())
}

pub fn find_srm(fields: &mut Fields, out: &mut Answers) -> Option<()> {
    let data = fields.u64()?;
    let offset = fields.u64()?;
    let run = fields.bytes()?;
    fields.end()?;
    put_row(out, srm_place(&run, data, offset));
    Some(())
}

/// The places of a packet's parts, found from its end: labels last, the peak list before them.
struct Places {
    packet: ScanDataPacket,
    peaks: u64,
    descriptors: u64,
    resolutions: u64,
    nodes: u64,
    end: u64,
}

impl Places {
    fn find(run: &[u8], place: u64) -> error::Result<Self> {
        let mut reader = reader_at(run, place);
        let packet = ScanDataPacket::read(&mut reader)?;
        let end = reader.position();
        let header = &packet.header;
        let nodes = end - 4 * u64::from(header.triplet_stream_size);
        let resolutions = nodes - 4 * u64::from(header.unknown_stream_size);
        let descriptors = resolutions - 4 * u64::from(header.descriptor_list_size);
        let item = if header.has_wide_mz() { 12 } else { 8 };
        let peaks = descriptors - item * packet.peaks.len() as u64;
        Ok(Self {
            packet,
            peaks,
            descriptors,
            resolutions,
            nodes,
            end,
        })
    }
}

/// Where the chunks of a profile start: behind a packet's header of 40 bytes and the profile's own of 24.
fn put_profile<'a>(out: &'a mut Answers, packet: &ScanDataPacket, place: u64) -> &'a mut Answers {
    match &packet.profile {
        None => out.put(" -"),
        Some(profile) => {
            let points: usize = profile.chunks.iter().map(|chunk| chunk.signal.len()).sum();
            out.number(place + 40 + 24)
                .number(profile.chunks.len())
                .number(points)
        }
    }
}

pub fn find_places(fields: &mut Fields, out: &mut Answers) -> Option<()> {
    let place = fields.u64()?;
    let run = fields.bytes()?;
    fields.end()?;
    match Places::find(&run, place) {
        Err(error) => out.refused(&error, Part::Data),
        Ok(found) => {
            let packet = &found.packet;
            put_header(out.ok(), &packet.header);
            put_profile(out, packet, place)
                .number(found.peaks)
                .number(packet.peaks.len())
                .number(found.descriptors)
                .number(packet.descriptors.len())
                .number(found.resolutions)
                .number(packet.resolutions.len())
                .number(found.nodes)
                .number(packet.noise_nodes.len())
                .number(found.end)
        }
    };
    Some(())
}

/// A row of peaks: place, distance, count, and whether masses are f64.
fn put_peaks<'a>(out: &'a mut Answers, row: (u64, u64), stride: u32, wide: bool) -> &'a mut Answers {
    out.ok()
        .number(1)
        .number(row.0)
        .number(stride)
        .number(row.1)
        .flag(wide)
}

pub fn find_data(fields: &mut Fields, out: &mut Answers) -> Option<()> {
    let format = fields.format()?;
    let data = fields.u64()?;
    let offset = fields.u64()?;
    let size = fields.u32()?;
    let run = fields.bytes()?;
    fields.end()?;
    let place = data.saturating_add(offset);
    let refused = match format {
        ScanDataFormat::PacketHeader => Places::find(&run, place).map(|found| {
            if found.packet.profile.is_some() {
                out.ok().number(0);
                put_profile(out, &found.packet, place);
            } else {
                let wide = found.packet.header.has_wide_mz();
                let row = (found.peaks, found.packet.peaks.len() as u64);
                put_peaks(out, row, if wide { 12 } else { 8 }, wide);
            }
        }),
        ScanDataFormat::FlatV63 => flat_place(&run, data, offset, size).map(|row| {
            put_peaks(out, row, 8, false);
        }),
        ScanDataFormat::FlatV66 => srm_place(&run, data, offset).map(|row| {
            put_peaks(out, row, 12, false);
        }),
    };
    if let Err(error) = refused {
        out.refused(&error, Part::Data);
    }
    Some(())
}
