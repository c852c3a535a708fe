//! Flat and SRM records: scan_data.rs.

use crate::answer::{lent32, Answers, Part};
use crate::error;
use crate::packets::PeakSlices;
use crate::request::Fields;
use crate::scan_data::{read_flat_peaks, read_scan_srm_v66, read_scan_srm_v66_windows, Peak};
use std::io::Cursor;

pub fn flat(fields: &mut Fields, out: &mut Answers) -> Option<()> {
    let data = fields.u64()?;
    let offset = fields.u64()?;
    let size = fields.u32()?;
    peaks_by(fields, out, |source| {
        read_flat_peaks(source, data, offset, size)
    })
}

pub fn srm(fields: &mut Fields, out: &mut Answers) -> Option<()> {
    let data = fields.u64()?;
    let offset = fields.u64()?;
    // The original does not use the record's size.
    peaks_by(fields, out, |source| {
        read_scan_srm_v66(source, data, offset, 0)
    })
}

/// The fields from M on, and the answer by either function.
fn peaks_by<F>(fields: &mut Fields, out: &mut Answers, read: F) -> Option<()>
where
    F: FnOnce(&mut Cursor<&[u8]>) -> error::Result<Vec<Peak>>,
{
    let mut slices = PeakSlices::lent(fields)?;
    let bytes = fields.bytes()?;
    fields.end()?;
    match read(&mut Cursor::new(&bytes)) {
        Err(error) => out.refused(&error, Part::Data),
        Ok(peaks) if !slices.hold(&peaks) => out.too_short(),
        Ok(peaks) => {
            slices.fill(&peaks, false);
            out.ok().number(peaks.len())
        }
    };
    slices.put(out);
    Some(())
}

pub fn srm_windows(fields: &mut Fields, out: &mut Answers) -> Option<()> {
    let data = fields.u64()?;
    let offset = fields.u64()?;
    let mut lows = lent32(fields.lent_elements()?);
    let mut highs = lent32(fields.lent_elements()?);
    let bytes = fields.bytes()?;
    fields.end()?;
    match read_scan_srm_v66_windows(&mut Cursor::new(&bytes), data, offset) {
        Err(error) => out.refused(&error, Part::Data),
        Ok(windows) if lows.len().min(highs.len()) < windows.len() => out.too_short(),
        Ok(windows) => {
            for (at, (low, high)) in windows.iter().enumerate() {
                lows[at] = low.to_bits();
                highs[at] = high.to_bits();
            }
            out.ok().number(windows.len())
        }
    }
    .slice32(&lows)
    .slice32(&highs);
    Some(())
}
