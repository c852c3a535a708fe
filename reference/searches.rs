//! Searches in a method's bytes: scan_data.rs and reader.rs.

use crate::answer::{lent16, lent64, Answers};
use crate::error;
use crate::reader;
use crate::request::Fields;
use crate::scan_data::search_v63_transition;

/// A centre and the bytes behind it that the v63 search asks for.
const FROM_CENTRE: usize = 33;

/// The place of what the v63 search finds, which the original does not answer: the bytes up to it are the shortest in
/// which something is found.
fn v63_place(bytes: &[u8], target: f64) -> usize {
    let lengths: Vec<usize> = (0..bytes.len()).collect();
    let shortest = lengths
        .partition_point(|&length| search_v63_transition(&bytes[..length], target).is_none());
    shortest - FROM_CENTRE
}

pub fn v63(fields: &mut Fields, out: &mut Answers) -> Option<()> {
    let target = f64::from_bits(fields.u64()?);
    let bytes = fields.bytes()?;
    fields.end()?;
    match search_v63_transition(&bytes, target) {
        None => out.none(),
        Some((q1, q3_width, collision_energy)) => out
            .ok()
            .number(v63_place(&bytes, target))
            .bits64(q1.to_bits())
            .bits64(q3_width.to_bits())
            .bits64(collision_energy.to_bits()),
    };
    Some(())
}

/// The searches of reader.rs read only bytes that are there.
fn found<T>(answer: error::Result<T>) -> T {
    answer.unwrap_or_else(|error| panic!("a search: {error:?}"))
}

pub fn event_transition(fields: &mut Fields, out: &mut Answers) -> Option<()> {
    let event = fields.u16()?;
    let q3_hi = f64::from_bits(fields.u64()?);
    let bytes = fields.bytes()?;
    fields.end()?;
    match found(reader::event_transition(&bytes, event, q3_hi)) {
        None => out.none(),
        Some((place, q1)) => out.ok().number(place).bits64(q1.to_bits()),
    };
    Some(())
}

pub fn channels(fields: &mut Fields, out: &mut Answers) -> Option<()> {
    let events = fields.u16s()?;
    let mut channel_events = lent16(fields.lent_elements()?);
    let mut q1s = lent64(fields.lent_elements()?);
    let mut energies = lent64(fields.lent_elements()?);
    let bytes = fields.bytes()?;
    fields.end()?;
    let channels = found(reader::event_channels(&bytes, &events));
    let shortest = channel_events.len().min(q1s.len()).min(energies.len());
    if shortest < channels.len() {
        out.too_short();
    } else {
        for (at, (event, q1, energy)) in channels.iter().enumerate() {
            channel_events[at] = *event;
            q1s[at] = q1.to_bits();
            energies[at] = energy.to_bits();
        }
        out.ok().number(channels.len());
    }
    out.slice16(&channel_events)
        .slice64(&q1s)
        .slice64(&energies);
    Some(())
}
