// nal_unit_type of slices and partitions A (Table 7-1)
fn is_slice(nal_unit_type: u8) -> bool {
    matches!(nal_unit_type, 1 | 2 | 5)
}

// Whether a unit begins a new access unit where it stands behind a slice (7.4.1.2.3). Slices of a picture come in the order of their
// macroblocks: one begins an access unit where its first_mb_in_slice is 0, which is the first bit behind its header.
fn begins_access_unit(nal_unit_type: u8, first_byte: u8) -> bool {
    if is_slice(nal_unit_type) {
        first_byte >= 128
    } else {
        matches!(nal_unit_type, 6..=9 | 14..=18)
    }
}

/// How many of these bytes, which begin with a start code or zeros, are their first access unit (7.4.1.2.3): up to where the start code of
/// the next one stands. `None` where no next one begins in them: then wait for more bytes, or at the stream's end take all. A picture whose
/// first slice is lost is taken for a part of the one before.
#[must_use]
pub fn access_unit_length(bytes: &[u8]) -> Option<usize> {
    let mut has_slice = false;
    for (at, unit) in bytes.windows(5).enumerate() {
        if unit[..3] != [0, 0, 1] {
            continue;
        }
        let nal_unit_type = unit[3] & 31;
        if has_slice && begins_access_unit(nal_unit_type, unit[4]) {
            return Some(if bytes[at - 1] == 0 { at - 1 } else { at });
        }
        has_slice |= is_slice(nal_unit_type);
    }
    None
}

/// The access units of a stream that is there as a whole, one after another, each as a packet for [`mark`](crate::Decoder::mark),
/// [`decode`](crate::Decoder::decode) and [`end_access_unit`](crate::Decoder::end_access_unit). [`access_unit_length`] finds their ends.
///
/// ```
/// # let stream = [0u8, 0, 1, 0x65, 0x88, 0, 0, 0, 1, 9, 0xF0, 0, 0, 1, 0x41, 0x9A];
/// let packets: Vec<&[u8]> = avcdec::access_units(&stream).collect();
/// assert_eq!(packets, [&stream[..5], &stream[5..]]);
/// ```
pub fn access_units(stream: &[u8]) -> AccessUnits<'_> {
    AccessUnits { rest: stream }
}

/// What [`access_units`] makes.
#[derive(Clone, Debug)]
#[must_use]
pub struct AccessUnits<'a> {
    rest: &'a [u8],
}

impl<'a> Iterator for AccessUnits<'a> {
    type Item = &'a [u8];

    fn next(&mut self) -> Option<&'a [u8]> {
        if self.rest.is_empty() {
            return None;
        }
        let length = access_unit_length(self.rest).unwrap_or(self.rest.len());
        let (unit, rest) = self.rest.split_at(length);
        self.rest = rest;
        Some(unit)
    }
}
