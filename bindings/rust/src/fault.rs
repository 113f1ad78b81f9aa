use crate::c;
use std::fmt;
use std::ops::Deref;

/// What is wrong with a unit or a picture, by its number.
#[derive(Clone, Copy, Debug, PartialEq, Eq, Hash)]
pub struct Fault(u32);

impl Fault {
    pub(crate) fn new(number: u32) -> Fault {
        Fault(number)
    }

    /// The number, as 32.
    #[must_use]
    pub fn number(self) -> u32 {
        self.0
    }

    /// The name, as `FrameNumGap`. It takes no memory of the heap.
    ///
    /// ```
    /// # let mut decoder = avcdec::Decoder::new(avcdec::Output::Full)?;
    /// decoder.feed(&[0, 0, 1, 0xE7, 0x42])?;
    /// decoder.flush()?;
    /// match decoder.take()? {
    ///     Some(avcdec::Event::Refused(refusal)) => assert_eq!(refusal.fault.name(), "ForbiddenBit"),
    ///     other => panic!("{other:?}"),
    /// }
    /// # Ok::<(), avcdec::Error>(())
    /// ```
    #[must_use]
    pub fn name(self) -> FaultName {
        let mut bytes = [0u8; c::NAME_SIZE];
        // the name has room, and ends in a 0
        unsafe { c::avcdec_fault_name(self.0, bytes.as_mut_ptr().cast(), bytes.len()) };
        let length = bytes.iter().take_while(|byte| **byte != 0).count();
        FaultName { bytes, length }
    }
}

impl fmt::Display for Fault {
    fn fmt(&self, f: &mut fmt::Formatter<'_>) -> fmt::Result {
        write!(f, "{} {}", self.0, self.name())
    }
}

/// The name of a fault: a short text of letters, which stands in itself and not on the heap.
#[derive(Clone, Copy, PartialEq, Eq, Hash)]
pub struct FaultName {
    bytes: [u8; c::NAME_SIZE],
    length: usize,
}

impl Deref for FaultName {
    type Target = str;

    fn deref(&self) -> &str {
        // names are of ASCII
        std::str::from_utf8(&self.bytes[..self.length]).unwrap_or_default()
    }
}

impl PartialEq<&str> for FaultName {
    fn eq(&self, other: &&str) -> bool {
        **self == **other
    }
}

impl fmt::Display for FaultName {
    fn fmt(&self, f: &mut fmt::Formatter<'_>) -> fmt::Result {
        f.pad(self)
    }
}

impl fmt::Debug for FaultName {
    fn fmt(&self, f: &mut fmt::Formatter<'_>) -> fmt::Result {
        fmt::Debug::fmt(&**self, f)
    }
}

/// A refusal of a picture or of a unit. Its printed text is that of the program.
#[derive(Clone, Copy, Debug, PartialEq, Eq, Hash)]
pub struct Refusal {
    /// The NAL unit in which the fault stands, counted from 0 since the last reset.
    pub unit: u64,
    /// What is wrong.
    pub fault: Fault,
    /// The value that [`Decoder::mark`](crate::Decoder::mark) gave to the unit; 0 where no mark was made before it.
    pub value: u64,
}

impl fmt::Display for Refusal {
    fn fmt(&self, f: &mut fmt::Formatter<'_>) -> fmt::Result {
        write!(f, "refused unit {}: {}", self.unit, self.fault)
    }
}
