// The searches that the requests ask for. It is included at the end of reader.rs, whose private functions can be reached
// there.

pub(crate) fn event_transition(
    data: &[u8],
    event: u16,
    q3_hi: f64,
) -> Result<Option<(usize, f64)>> {
    flatv66_event_transition(data, event, q3_hi)
}

/// Only the keys of the original's map matter.
pub(crate) fn event_channels(data: &[u8], events: &[u16]) -> Result<Vec<(u16, f64, f64)>> {
    let events = events.iter().map(|&event| (event, 0.0)).collect();
    flatv66_event_channels(data, &events)
}
