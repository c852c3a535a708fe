//! Pairs of m/z and intensity: scan_data.rs.

use crate::answer::{lent64, made_bits64, Answers, Part};
use crate::reader_at;
use crate::request::Fields;
use crate::scan_data::{self, Profile};

pub fn freq_to_mz(fields: &mut Fields, out: &mut Answers) -> Option<()> {
    let freq = f64::from_bits(fields.u64()?);
    let coefficients = fields.f64s()?;
    fields.end()?;
    out.ok().made64(scan_data::freq_to_mz(freq, &coefficients));
    Some(())
}

pub fn pairs(fields: &mut Fields, out: &mut Answers) -> Option<()> {
    let layout = fields.u32()?;
    let place = fields.u64()?;
    let mut masses = lent64(fields.lent_elements()?);
    let mut intensities = lent64(fields.lent_elements()?);
    let coefficients = fields.f64s()?;
    let bytes = fields.bytes()?;
    fields.end()?;
    let pairs = Profile::read_at(&mut reader_at(&bytes, place), layout)
        .map(|profile| profile.to_mz_intensity(&coefficients));
    match pairs {
        Err(error) => out.refused(&error, Part::Data),
        Ok(pairs) if masses.len().min(intensities.len()) < pairs.len() => out.too_short(),
        Ok(pairs) => {
            for (at, (mz, intensity)) in pairs.iter().enumerate() {
                masses[at] = made_bits64(*mz);
                intensities[at] = made_bits64(*intensity);
            }
            out.ok().number(pairs.len())
        }
    }
    .slice64(&masses)
    .slice64(&intensities);
    Some(())
}
