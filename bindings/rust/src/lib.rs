//! A proved decoder for H.264 (Rec. ITU-T H.264), Constrained Baseline profile.
//!
//! Bytes of a stream (Annex B) are fed in any pieces; pictures come out in output order, and one numbered refusal for each faulty
//! picture, after which decoding goes on by itself. A picture is lent, not copied: its rows are read where the decoder has them.
//!
//! ```
//! use avcdec::{Decoder, Event, Output};
//! # let stream = [
//! #     0u8, 0, 0, 1, 0x67, 0x42, 0xC0, 0x0A, 0xDA, 0x71, 0, 0, 0, 1, 0x68, 0xCE, 0x38, 0x80, 0, 0, 1, 0x65, 0x88, 0x84, 0x93, 0xC0,
//! # ];
//!
//! let mut pictures = 0;
//! let mut show = |event: Event<'_>| {
//!     match event {
//!         Event::Picture(picture) => {
//!             assert_eq!((picture.width(), picture.height()), (16, 16));
//!             assert!(picture.luma().rows().all(|row| row == [128; 16]));
//!             pictures += 1;
//!         }
//!         Event::Refused(refusal) => eprintln!("{refusal}"),
//!     }
//!     Ok::<(), avcdec::Error>(())
//! };
//! let mut decoder = Decoder::new(Output::Full)?;
//! for piece in stream.chunks(65_536) {
//!     decoder.decode(piece, &mut show)?;
//! }
//! decoder.finish(&mut show)?;
//! assert_eq!(pictures, 1);
//! # Ok::<(), avcdec::Error>(())
//! ```
//!
//! [`decode`] does this for a whole file, and [`events`] is an iterator over one, whose pictures have memory of their own.
//!
//! **Want of memory** is an error, [`Error::OutOfMemory`], and ends no program: each growth of this crate and of the library is asked for.

#![deny(missing_docs, missing_debug_implementations)]

mod c;
mod events;
mod fault;
mod info;
mod picture;
mod units;

pub use events::{decode, events, Events};
pub use fault::{Fault, FaultName, Refusal};
pub use info::PictureInfo;
pub use picture::{OwnedPicture, Picture, Plane};
pub use units::{access_unit_length, access_units, AccessUnits};

use picture::About;
use std::{fmt, io};

/// When pictures go out.
#[derive(Clone, Copy, Debug, PartialEq, Eq)]
pub enum Output {
    /// Once the decoded picture buffer has no room, at an IDR picture, or at the end.
    Full,
    /// As soon as the stream's max_num_reorder_frames allows, where it gives it: for calls.
    Early,
}

/// Why a call was not carried out.
#[derive(Clone, Copy, Debug, PartialEq, Eq)]
pub enum Error {
    /// The system gave no memory. Where feeding, flushing or taking answers so, each does until [`Decoder::reset`]; where copying a picture
    /// does, nothing has changed.
    OutOfMemory,
    /// The stream has been ended by [`Decoder::flush`]. Nothing changes.
    Ended,
}

impl fmt::Display for Error {
    fn fmt(&self, f: &mut fmt::Formatter<'_>) -> fmt::Result {
        f.write_str(match self {
            Error::OutOfMemory => "out of memory",
            Error::Ended => "the stream has ended",
        })
    }
}

impl std::error::Error for Error {}

impl From<Error> for io::Error {
    fn from(error: Error) -> io::Error {
        match error {
            Error::OutOfMemory => io::ErrorKind::OutOfMemory.into(),
            Error::Ended => io::ErrorKind::InvalidInput.into(),
        }
    }
}

/// What a decoder hands out.
#[derive(Clone, Copy, Debug, PartialEq, Eq)]
pub enum Event<'a> {
    /// A picture, in output order, lent until the decoder's next call.
    Picture(Picture<'a>),
    /// A refusal of a picture or of a unit. Decoding goes on by itself.
    Refused(Refusal),
}

impl Event<'_> {
    /// The value that [`Decoder::mark`] gave to the unit of the picture's first slice, or of the refusal; 0 where no mark was made before
    /// it.
    #[must_use]
    pub fn value(&self) -> u64 {
        match self {
            Event::Picture(picture) => picture.value(),
            Event::Refused(refusal) => refusal.value,
        }
    }

    /// The event with its picture in memory of its own.
    pub fn keep(&self) -> Result<OwnedEvent, Error> {
        Ok(match self {
            Event::Picture(picture) => OwnedEvent::Picture(picture.keep()?),
            Event::Refused(refusal) => OwnedEvent::Refused(*refusal),
        })
    }
}

/// An event whose picture has memory of its own.
#[derive(Debug, PartialEq, Eq)]
pub enum OwnedEvent {
    /// A picture, in output order.
    Picture(OwnedPicture),
    /// A refusal of a picture or of a unit. Decoding goes on by itself.
    Refused(Refusal),
}

/// What [`Decoder::take_into`] took.
#[derive(Clone, Copy, Debug, PartialEq, Eq)]
pub enum Taken {
    /// A picture, which was copied.
    Picture,
    /// A refusal of a picture or of a unit. Decoding goes on by itself.
    Refused(Refusal),
}

/// A decoder of one byte stream at a time.
#[must_use]
pub struct Decoder {
    handle: c::Decoder,
    // a picture that was taken, and for whose copy there was no memory
    waiting: Option<c::Event>,
}

// It may go to another thread: the library's state belongs to one decoder alone and is not bound to a thread. It asks for one call at a
// time, each seen by the next, and `&mut` is that; a lent picture borrows the decoder, so no call runs while another thread reads it.
unsafe impl Send for Decoder {}

impl Decoder {
    /// At the start of a stream.
    pub fn new(output: Output) -> Result<Decoder, Error> {
        let mut handle = c::Decoder::closed();
        told(unsafe { c::avcdec_open(&mut handle, output == Output::Early) })?;
        Ok(Decoder {
            handle,
            waiting: None,
        })
    }

    /// Takes the next bytes of the stream. All pictures that they bring wait inside until they are taken, and a small piece can bring
    /// many: [`Decoder::feed_unit`] and [`Decoder::decode`] bound them.
    pub fn feed(&mut self, bytes: &[u8]) -> Result<(), Error> {
        told(unsafe { c::avcdec_feed(&mut self.handle, bytes.as_ptr(), bytes.len()) })
    }

    /// Takes bytes as [`Decoder::feed`] does, but only up to where the next unit has ended, and answers how many: at least 1 where there
    /// are any, and all where no unit has ended. Where all events are taken after each call, at most the pictures that one unit lets
    /// out wait.
    pub fn feed_unit(&mut self, bytes: &[u8]) -> Result<usize, Error> {
        let mut used = 0;
        told(unsafe {
            c::avcdec_feed_unit(&mut self.handle, bytes.as_ptr(), bytes.len(), &mut used)
        })?;
        Ok(used)
    }

    /// Gives a value, as the time of a packet, to all units that begin with the bytes fed from here on, up to the next mark. Each event has
    /// that of its unit, in whichever order pictures come. The newest 1,024 marks are kept, of one unit the last; a reset forgets them.
    ///
    /// ```
    /// # let packets = [(40, [0u8, 0, 1, 0xE7, 0x42])];
    /// # let mut decoder = avcdec::Decoder::new(avcdec::Output::Full)?;
    /// for (time, packet) in packets {
    ///     decoder.mark(time)?;
    ///     decoder.decode(&packet, |event| Ok::<(), avcdec::Error>(println!("{}: {event:?}", event.value())))?;
    /// }
    /// # decoder.flush()?;
    /// # assert_eq!(decoder.take()?.map(|event| event.value()), Some(40));
    /// # Ok::<(), avcdec::Error>(())
    /// ```
    pub fn mark(&mut self, value: u64) -> Result<(), Error> {
        told(unsafe { c::avcdec_mark(&mut self.handle, value) })
    }

    /// The oldest value that no event has had and none will have: its mark was made before that of the newest IDR picture that was taken.
    /// It goes, so that the next call tells the next one. Behind the last event after [`Decoder::flush`] none of the others comes either,
    /// and they are not told.
    pub fn take_dropped(&mut self) -> Option<u64> {
        let mut value = 0;
        let status = unsafe { c::avcdec_take_dropped(&mut self.handle, &mut value) };
        (status == c::OK).then_some(value)
    }

    /// Feeds bytes unit by unit and hands on each event as it comes. After an error of `each` the bytes of the unit before are fed, and
    /// none behind it.
    pub fn decode<E: From<Error>>(
        &mut self,
        bytes: &[u8],
        mut each: impl FnMut(Event<'_>) -> Result<(), E>,
    ) -> Result<(), E> {
        let mut rest = bytes;
        while !rest.is_empty() {
            let used = self.feed_unit(rest)?;
            rest = &rest[used..];
            self.take_all(&mut each)?;
        }
        Ok(())
    }

    /// Ends the stream and hands on the events that are left.
    pub fn finish<E: From<Error>>(
        &mut self,
        each: impl FnMut(Event<'_>) -> Result<(), E>,
    ) -> Result<(), E> {
        self.flush()?;
        self.take_all(each)
    }

    /// Takes each event that the bytes so far define.
    pub fn take_all<E: From<Error>>(
        &mut self,
        mut each: impl FnMut(Event<'_>) -> Result<(), E>,
    ) -> Result<(), E> {
        while let Some(event) = self.take()? {
            each(event)?;
        }
        Ok(())
    }

    /// Says that the bytes so far end with a whole access unit, as [`access_units`] finds them: its picture is decoded now, and not only once
    /// the next unit begins. It adds 1 to the count of units.
    pub fn end_access_unit(&mut self) -> Result<(), Error> {
        // an access unit delimiter (7.3.2.4), and a start code
        self.feed(&[0, 0, 1, 9, 0xF0, 0, 0, 1])
    }

    /// Ends the stream: the bytes so far are all.
    pub fn flush(&mut self) -> Result<(), Error> {
        told(unsafe { c::avcdec_flush(&mut self.handle) })
    }

    /// Forgets everything, want of memory too: a new stream begins. When pictures go out stays as it was.
    pub fn reset(&mut self) {
        self.waiting = None;
        unsafe { c::avcdec_reset(&mut self.handle) };
    }

    /// How many macroblocks have been read since the last reset.
    #[must_use]
    pub fn turns(&mut self) -> u64 {
        unsafe { c::avcdec_turns(&mut self.handle) }
    }

    /// The next event that the bytes so far define, if there is one. Its picture borrows the decoder: take it, read it, and let it go
    /// before the next call.
    ///
    /// ```
    /// # let mut decoder = avcdec::Decoder::new(avcdec::Output::Full)?;
    /// while let Some(event) = decoder.take()? {
    ///     if let avcdec::Event::Picture(picture) = event {
    ///         let kept: Vec<u8> = picture.to_i420()?;
    /// #       drop(kept);
    ///     }
    /// }
    /// # Ok::<(), avcdec::Error>(())
    /// ```
    pub fn take(&mut self) -> Result<Option<Event<'_>>, Error> {
        let event = self.next_event()?;
        Ok(self.event(&event))
    }

    /// Takes the next event as [`Decoder::take`] does, and copies its picture, whose memory is used again from one to the next. Where there
    /// is no memory for the copy, `picture` is empty, and the next call takes the same event.
    ///
    /// ```
    /// # let mut decoder = avcdec::Decoder::new(avcdec::Output::Full)?;
    /// let mut picture = avcdec::OwnedPicture::new();
    /// while let Some(taken) = decoder.take_into(&mut picture)? {
    ///     if taken == avcdec::Taken::Picture {
    ///         println!("{} bytes", picture.i420().len());
    ///     }
    /// }
    /// # Ok::<(), avcdec::Error>(())
    /// ```
    pub fn take_into(&mut self, picture: &mut OwnedPicture) -> Result<Option<Taken>, Error> {
        let event = self.next_event()?;
        let copied = match self.event(&event) {
            None => return Ok(None),
            Some(Event::Refused(refusal)) => return Ok(Some(Taken::Refused(refusal))),
            Some(Event::Picture(lent)) => lent.keep_in(picture),
        };
        if copied.is_err() {
            self.waiting = Some(event);
        }
        copied.map(|()| Some(Taken::Picture))
    }

    // What the library tells next: a picture that waits, or what it takes.
    fn next_event(&mut self) -> Result<c::Event, Error> {
        if let Some(event) = self.waiting.take() {
            return Ok(event);
        }
        let mut event = c::Event::default();
        told(unsafe { c::avcdec_take(&mut self.handle, &mut event) })?;
        Ok(event)
    }

    // whether something was told
    fn is_one(&self, event: &c::Event) -> bool {
        event.kind != c::NOTHING
    }

    // what the library told last
    fn event(&mut self, event: &c::Event) -> Option<Event<'_>> {
        match event.kind {
            c::PICTURE => Some(Event::Picture(self.picture(event))),
            c::REFUSED => Some(Event::Refused(Refusal {
                unit: event.unit,
                fault: Fault::new(event.fault),
                value: event.value,
            })),
            _ => None,
        }
    }

    // the picture that was taken last
    fn picture(&mut self, event: &c::Event) -> Picture<'_> {
        let mut info = c::Info::default();
        let status = unsafe { c::avcdec_picture_info(&mut self.handle, &mut info) };
        assert_eq!(status, c::OK, "a picture was taken");
        let about = About {
            coded: (event.width as usize, event.height as usize),
            value: event.value,
            info: PictureInfo::of(&info),
        };
        Picture::new(about, [0, 1, 2].map(|plane| self.plane(plane)))
    }

    // One plane of it. Its rows stay until the next take, reset or close, which the borrow of the decoder keeps away.
    fn plane<'a>(&mut self, plane: u32) -> Plane<'a> {
        let mut rows = c::Rows::none();
        let status = unsafe { c::avcdec_lend_plane(&mut self.handle, plane, &mut rows) };
        assert_eq!(status, c::OK, "a picture was taken");
        unsafe { Plane::of_rows(&rows) }
    }
}

impl Drop for Decoder {
    fn drop(&mut self) {
        unsafe { c::avcdec_close(&mut self.handle) }
    }
}

impl fmt::Debug for Decoder {
    fn fmt(&self, f: &mut fmt::Formatter<'_>) -> fmt::Result {
        f.debug_struct("Decoder").finish_non_exhaustive()
    }
}

/// The version of the library: 65536 times its first number, 256 times its second, and its third.
#[must_use]
pub fn version() -> u32 {
    unsafe { c::avcdec_version() }
}

fn told(status: u32) -> Result<(), Error> {
    match status {
        c::OK => Ok(()),
        c::OUT_OF_MEMORY => Err(Error::OutOfMemory),
        c::ENDED => Err(Error::Ended),
        other => unreachable!("status {other} of an open decoder"),
    }
}

/// A decoder is not made for nothing:
///
/// ```compile_fail
/// #![deny(unused_must_use)]
/// avcdec::Decoder::new(avcdec::Output::Full).unwrap();
/// ```
///
/// ```
/// #![deny(unused_must_use)]
/// drop(avcdec::Decoder::new(avcdec::Output::Full).unwrap());
/// ```
#[cfg(doctest)]
struct MustUse;

// the README's programs are compiled as tests
#[cfg(doctest)]
#[doc = include_str!("../README.md")]
struct Readme;
