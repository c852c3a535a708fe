//! The listing of a tray: document 01's lines of the pairs that document 02's L1 leaves, made here from whole numbers alone.

use crate::answer::{made_bits64, Answers};
use crate::request::Fields;
use crate::scan_format::ScanDataFormat;
use crate::tray::{Refusal, Scan, Tray, TOO_SHORT};
use std::fmt::Write as _;
use std::io::{BufRead, Error, ErrorKind, Read, Write};

/// The longest tray that is listed.
const LONGEST: usize = 24576;

/// How many elements the program lends.
const PREAMBLE: usize = 256;
const REACTIONS: usize = 64;
const COEFFICIENTS: usize = 64;
const PAIRS: usize = 2048;

/// Lists the one tray that the input is.
pub fn list_one(mut input: impl Read, mut output: impl Write) -> std::io::Result<()> {
    let mut tray = Vec::new();
    input.read_to_end(&mut tray)?;
    output.write_all(listing(&tray).as_bytes())
}

/// Lists many trays, each behind its length and a line feed. Before each listing goes a line with its length.
pub fn list_many(mut input: impl BufRead, mut output: impl Write) -> std::io::Result<()> {
    let mut line = String::new();
    while input.read_line(&mut line)? > 0 {
        let length = line.trim_end().parse();
        let length: usize = length.map_err(|error| Error::new(ErrorKind::InvalidData, error))?;
        let mut tray = vec![0; length];
        input.read_exact(&mut tray)?;
        let text = listing(&tray);
        write!(output, "# {}\n{text}", text.len())?;
        line.clear();
    }
    Ok(())
}

fn listing(tray: &[u8]) -> String {
    if tray.len() > LONGEST {
        return "L\n".to_owned();
    }
    let tray = match Tray::open(tray) {
        Err(refusal) => return refusal_line(0, &refusal),
        Ok(tray) => tray,
    };
    let mut text = format!("T {} {}\n", tray.version, tray.scans);
    for k in 0..tray.scans {
        text += &match tray.scan(k, None) {
            Err(refusal) => refusal_line(k, &refusal),
            Ok(scan) if !fits(&scan) => refusal_line(k, &TOO_SHORT),
            Ok(scan) => scan_lines(k, &scan, tray.format()),
        };
    }
    text
}

fn fits(scan: &Scan) -> bool {
    scan.event.preamble().bytes().len() <= PREAMBLE
        && scan.event.reactions().len() <= REACTIONS
        && scan.event.coefficients().len() <= COEFFICIENTS
        && scan.pairs.len() <= PAIRS
}

fn refusal_line(number: u32, refusal: &Refusal) -> String {
    format!("X {number} {} {}\n", refusal.number(), refusal.part())
}

/// L1: a flat scan's pairs of zero m/z, of either sign, are not listed. A zero has no bit but its sign.
fn is_listed(format: ScanDataFormat, mz: f64) -> bool {
    !format.is_flat() || mz.to_bits() << 1 != 0
}

pub fn listed(fields: &mut Fields, out: &mut Answers) -> Option<()> {
    let format = fields.format()?;
    let mut masses = fields.f64s()?;
    let mut intensities = fields.f64s()?;
    fields.end()?;
    let mut pairs: Vec<_> = masses
        .iter()
        .copied()
        .zip(intensities.iter().copied())
        .collect();
    pairs.retain(|(mz, _)| is_listed(format, *mz));
    for (at, (mz, intensity)) in pairs.iter().enumerate() {
        masses[at] = *mz;
        intensities[at] = *intensity;
    }
    let bits = |floats: &[f64]| floats.iter().copied().map(made_bits64).collect::<Vec<_>>();
    out.ok()
        .number(pairs.len())
        .slice64(&bits(&masses))
        .slice64(&bits(&intensities));
    Some(())
}

fn scan_lines(number: u32, scan: &Scan, format: ScanDataFormat) -> String {
    let coefficients = scan.event.coefficients().len();
    let mut listed = scan.pairs.clone();
    listed.retain(|(mz, _)| is_listed(format, *mz));
    let mut text = format!("S {number} {} {coefficients}\n", listed.len());
    for (mz, intensity) in &listed {
        match ten_thousandths(*mz) {
            // Writing to a string does not fail.
            Some(mass) => _ = write!(text, "{mass}"),
            None => text += "-",
        }
        let _ = writeln!(text, " {:016x}", made_bits64(*intensity));
    }
    text
}

/// The exact value in ten-thousandths, nearest, half up; none for NaN, negative and above 50,000.
pub fn ten_thousandths(mz: f64) -> Option<u128> {
    // -0 is neither below 0 nor above.
    if mz.is_nan() || mz < 0.0 || mz > 50_000.0 {
        return None;
    }
    let bits = mz.to_bits() & !(1 << 63);
    let exponent = (bits >> 52) as u32;
    let fraction = u128::from(bits & ((1 << 52) - 1));
    // The value is `significand` times 2^-1074, or, of a normal number, 2^(exponent - 1075).
    let (significand, exponent) = match exponent {
        0 => (fraction, 1),
        _ => (fraction | 1 << 52, exponent),
    };
    // 50,000 is below 2^16, so the power is below 0, and the product below 2^67.
    let down = 1075 - exponent;
    let product = significand * 10_000;
    if down > 68 {
        // Less than a half.
        return Some(0);
    }
    Some((product + (1 << (down - 1))) >> down)
}
