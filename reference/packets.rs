//! Scan data packets: scan_data.rs.

use crate::answer::{lent32, lent64, lent8, made_bits32, made_bits64, Answers, Part};
use crate::error;
use crate::reader_at;
use crate::request::Fields;
use crate::scan_data::{NoiseNode, PacketHeader, Peak, Profile, ScanDataPacket};

pub fn packet_header(fields: &mut Fields, out: &mut Answers) -> Option<()> {
    let place = fields.u64()?;
    let bytes = fields.bytes()?;
    fields.end()?;
    match PacketHeader::read_at(&mut reader_at(&bytes, place)) {
        Err(error) => out.refused(&error, Part::Data),
        Ok(header) => put_header(out.ok(), &header),
    };
    Some(())
}

pub fn put_header<'a>(out: &'a mut Answers, header: &PacketHeader) -> &'a mut Answers {
    out.number(header.profile_size)
        .number(header.peak_list_size)
        .number(header.layout)
        .number(header.descriptor_list_size)
        .number(header.unknown_stream_size)
        .number(header.triplet_stream_size)
        .bits32(header.low_mz.to_bits())
        .bits32(header.high_mz.to_bits())
}

/// The slices lent for peaks. They hold the bits of floats.
pub struct PeakSlices {
    masses: Vec<u64>,
    abundances: Vec<u32>,
}

impl PeakSlices {
    /// The fields M and A.
    pub fn lent(fields: &mut Fields) -> Option<Self> {
        Some(Self {
            masses: lent64(fields.lent_elements()?),
            abundances: lent32(fields.lent_elements()?),
        })
    }

    pub fn hold(&self, peaks: &[Peak]) -> bool {
        self.masses.len() >= peaks.len() && self.abundances.len() >= peaks.len()
    }

    /// Fills slices that hold the peaks. Masses that were stored as f64 keep their bits.
    pub fn fill(&mut self, peaks: &[Peak], wide: bool) {
        for (at, peak) in peaks.iter().enumerate() {
            self.masses[at] = if wide {
                peak.mz.to_bits()
            } else {
                made_bits64(peak.mz)
            };
            self.abundances[at] = peak.abundance.to_bits();
        }
    }

    pub fn put<'a>(&self, out: &'a mut Answers) -> &'a mut Answers {
        out.slice64(&self.masses).slice32(&self.abundances)
    }
}

/// The peaks of the packet at a place, and whether their masses were stored as f64.
fn read_peaks(bytes: &[u8], place: u64) -> error::Result<(bool, Vec<Peak>)> {
    let header = PacketHeader::read_at(&mut reader_at(bytes, place))?;
    let peaks = ScanDataPacket::read_peaks_only(&mut reader_at(bytes, place))?;
    Ok((header.has_wide_mz(), peaks))
}

pub fn peaks(fields: &mut Fields, out: &mut Answers) -> Option<()> {
    let place = fields.u64()?;
    let mut slices = PeakSlices::lent(fields)?;
    let bytes = fields.bytes()?;
    fields.end()?;
    match read_peaks(&bytes, place) {
        Err(error) => out.refused(&error, Part::Data),
        Ok((_, peaks)) if !slices.hold(&peaks) => out.too_short(),
        Ok((wide, peaks)) => {
            slices.fill(&peaks, wide);
            out.ok().number(peaks.len())
        }
    };
    slices.put(out);
    Some(())
}

/// The slices lent for a packet's peaks and labels.
struct ListSlices {
    peaks: PeakSlices,
    descriptors: Vec<u32>,
    resolutions: Vec<u32>,
}

impl ListSlices {
    /// The fields M, A, D and R.
    fn lent(fields: &mut Fields) -> Option<Self> {
        Some(Self {
            peaks: PeakSlices::lent(fields)?,
            descriptors: lent32(fields.lent_elements()?),
            resolutions: lent32(fields.lent_elements()?),
        })
    }

    fn hold(&self, packet: &ScanDataPacket) -> bool {
        self.peaks.hold(&packet.peaks)
            && self.descriptors.len() >= packet.descriptors.len()
            && self.resolutions.len() >= packet.resolutions.len()
    }

    /// Fills slices that hold the lists.
    fn fill(&mut self, packet: &ScanDataPacket) {
        self.peaks.fill(&packet.peaks, packet.header.has_wide_mz());
        self.descriptors[..packet.descriptors.len()].copy_from_slice(&packet.descriptors);
        put_bits(&mut self.resolutions, &packet.resolutions);
    }

    fn put<'a>(&self, out: &'a mut Answers) -> &'a mut Answers {
        self.peaks
            .put(out)
            .slice32(&self.descriptors)
            .slice32(&self.resolutions)
    }
}

/// The bits of floats, over the front of a slice.
fn put_bits(slice: &mut [u32], floats: &[f32]) {
    for (element, float) in slice.iter_mut().zip(floats) {
        *element = float.to_bits();
    }
}

/// The slices lent for a profile's chunks, and for the signal of all of them.
struct ChunkSlices {
    first_bins: Vec<u32>,
    counts: Vec<u32>,
    fudges: Vec<u32>,
    signal: Vec<u32>,
}

impl ChunkSlices {
    /// The fields F, C, G and S.
    fn lent(fields: &mut Fields) -> Option<Self> {
        Some(Self {
            first_bins: lent32(fields.lent_elements()?),
            counts: lent32(fields.lent_elements()?),
            fudges: lent32(fields.lent_elements()?),
            signal: lent32(fields.lent_elements()?),
        })
    }

    fn hold(&self, profile: &Option<Profile>) -> bool {
        let chunks = profile.as_ref().map_or(&[][..], |profile| &profile.chunks);
        let points: usize = chunks.iter().map(|chunk| chunk.signal.len()).sum();
        self.first_bins.len() >= chunks.len()
            && self.counts.len() >= chunks.len()
            && self.fudges.len() >= chunks.len()
            && self.signal.len() >= points
    }

    /// Fills slices that hold the chunks. A fudge that is absent is 0.
    fn fill(&mut self, profile: &Option<Profile>) {
        let mut points = 0;
        for (at, chunk) in profile.iter().flat_map(|p| &p.chunks).enumerate() {
            self.first_bins[at] = chunk.first_bin;
            self.counts[at] = chunk.signal.len() as u32;
            self.fudges[at] = chunk.fudge.map_or(0, f32::to_bits);
            put_bits(&mut self.signal[points..], &chunk.signal);
            points += chunk.signal.len();
        }
    }

    fn put<'a>(&self, out: &'a mut Answers) -> &'a mut Answers {
        out.slice32(&self.first_bins)
            .slice32(&self.counts)
            .slice32(&self.fudges)
            .slice32(&self.signal)
    }
}

/// The fields of a packet that ends at a place.
fn put_packet<'a>(out: &'a mut Answers, packet: &ScanDataPacket, end: u64) -> &'a mut Answers {
    put_header(out.ok(), &packet.header);
    match &packet.profile {
        None => out.put(" -"),
        Some(profile) => out
            .bits64(profile.first_value.to_bits())
            .bits64(profile.step.to_bits())
            .number(profile.peak_count)
            .number(profile.nbins),
    };
    let nodes: Vec<u8> = packet
        .noise_nodes
        .iter()
        .flat_map(|node| [node.mz, node.noise, node.baseline])
        .flat_map(f32::to_le_bytes)
        .collect();
    out.number(packet.peaks.len())
        .number(packet.descriptors.len())
        .number(packet.resolutions.len())
        .number(packet.noise_nodes.len())
        .number(end)
        .bytes(&nodes)
}

pub fn skip_profile(fields: &mut Fields, out: &mut Answers) -> Option<()> {
    let place = fields.u64()?;
    let mut lists = ListSlices::lent(fields)?;
    let bytes = fields.bytes()?;
    fields.end()?;
    let mut reader = reader_at(&bytes, place);
    match ScanDataPacket::read_skip_profile(&mut reader) {
        Err(error) => out.refused(&error, Part::Data),
        Ok(packet) if !lists.hold(&packet) => out.too_short(),
        Ok(packet) => {
            lists.fill(&packet);
            put_packet(out, &packet, reader.position())
        }
    };
    lists.put(out);
    Some(())
}

pub fn packet(fields: &mut Fields, out: &mut Answers) -> Option<()> {
    let place = fields.u64()?;
    let mut lists = ListSlices::lent(fields)?;
    let mut chunks = ChunkSlices::lent(fields)?;
    let bytes = fields.bytes()?;
    fields.end()?;
    let mut reader = reader_at(&bytes, place);
    match ScanDataPacket::read(&mut reader) {
        Err(error) => out.refused(&error, Part::Data),
        Ok(packet) if !(lists.hold(&packet) && chunks.hold(&packet.profile)) => out.too_short(),
        Ok(packet) => {
            lists.fill(&packet);
            chunks.fill(&packet.profile);
            put_packet(out, &packet, reader.position())
        }
    };
    chunks.put(lists.put(out));
    Some(())
}

pub fn narrow(fields: &mut Fields, out: &mut Answers) -> Option<()> {
    let value = f64::from_bits(fields.u64()?);
    fields.end()?;
    out.ok().made32(value as f32);
    Some(())
}

/// Whether all bits of the exponent are set, and a bit below them.
fn is_nan(mz: f64) -> bool {
    let bits = mz.to_bits();
    bits >> 52 & 0x7ff == 0x7ff && bits << 12 != 0
}

/// The bits of noise and baseline at an m/z. Outside the nodes they are a node's own, which keep their bits; between two
/// nodes they are made. The original is not asked at a NaN, where document 02 has none (L2) and it has the last node's.
fn noise_bits(packet: &ScanDataPacket, mz: f64) -> Option<(u32, u32)> {
    if is_nan(mz) {
        return None;
    }
    let (noise, baseline) = packet.noise_at(mz)?;
    let reaches = |node: &NoiseNode| mz as f32 <= node.mz;
    let nodes = &packet.noise_nodes;
    let stored = reaches(&nodes[0]) || !nodes[1..].iter().any(reaches);
    Some(if stored {
        (noise.to_bits(), baseline.to_bits())
    } else {
        (made_bits32(noise), made_bits32(baseline))
    })
}

fn put_noise<'a>(out: &'a mut Answers, packet: &ScanDataPacket, mz: f64) -> &'a mut Answers {
    match noise_bits(packet, mz) {
        None => out.none(),
        Some((noise, baseline)) => out.ok().bits32(noise).bits32(baseline),
    }
}

pub fn noise(fields: &mut Fields, out: &mut Answers) -> Option<()> {
    let mz = f64::from_bits(fields.u64()?);
    let nodes = fields.bytes()?;
    fields.end()?;
    put_noise(out, &ScanDataPacket::with_nodes(&nodes), mz);
    Some(())
}

/// Noise from a packet that was read.
pub fn packet_noise(fields: &mut Fields, out: &mut Answers) -> Option<()> {
    let mz = f64::from_bits(fields.u64()?);
    let place = fields.u64()?;
    let bytes = fields.bytes()?;
    fields.end()?;
    match ScanDataPacket::read_skip_profile(&mut reader_at(&bytes, place)) {
        Err(error) => out.refused(&error, Part::Data),
        Ok(packet) => put_noise(out, &packet, mz),
    };
    Some(())
}

/// The slices lent for labels: a byte, a noise and a baseline for each mass.
struct LabelSlices {
    flags: Vec<u8>,
    noises: Vec<u32>,
    baselines: Vec<u32>,
}

impl LabelSlices {
    /// The fields F, N and B.
    fn lent(fields: &mut Fields) -> Option<Self> {
        Some(Self {
            flags: lent8(fields.lent_elements()?),
            noises: lent32(fields.lent_elements()?),
            baselines: lent32(fields.lent_elements()?),
        })
    }

    fn hold(&self, count: usize) -> bool {
        self.flags.len().min(self.noises.len()).min(self.baselines.len()) >= count
    }

    /// Fills slices that hold a label for each mass.
    fn fill(&mut self, packet: &ScanDataPacket, masses: &[f64]) {
        for (at, mz) in masses.iter().enumerate() {
            let label = noise_bits(packet, *mz);
            let (noise, baseline) = label.unwrap_or((0, 0));
            self.flags[at] = u8::from(label.is_some());
            self.noises[at] = noise;
            self.baselines[at] = baseline;
        }
    }

    fn put<'a>(&self, out: &'a mut Answers) -> &'a mut Answers {
        out.slice8(&self.flags).slice32(&self.noises).slice32(&self.baselines)
    }
}

/// Labels for the peaks of a packet that was read.
pub fn packet_labels(fields: &mut Fields, out: &mut Answers) -> Option<()> {
    let place = fields.u64()?;
    let mut labels = LabelSlices::lent(fields)?;
    let bytes = fields.bytes()?;
    fields.end()?;
    match ScanDataPacket::read_skip_profile(&mut reader_at(&bytes, place)) {
        Err(error) => out.refused(&error, Part::Data),
        Ok(packet) if !labels.hold(packet.peaks.len()) => out.too_short(),
        Ok(packet) => {
            let masses: Vec<f64> = packet.peaks.iter().map(|peak| peak.mz).collect();
            labels.fill(&packet, &masses);
            out.ok().number(masses.len())
        }
    };
    labels.put(out);
    Some(())
}

/// The original has no labels for a peak list: they are the noise at each mass.
pub fn labels(fields: &mut Fields, out: &mut Answers) -> Option<()> {
    let masses = fields.f64s()?;
    let mut labels = LabelSlices::lent(fields)?;
    let nodes = fields.bytes()?;
    fields.end()?;
    if labels.hold(masses.len()) {
        labels.fill(&ScanDataPacket::with_nodes(&nodes), &masses);
        out.ok().number(masses.len());
    } else {
        out.too_short();
    }
    labels.put(out);
    Some(())
}
