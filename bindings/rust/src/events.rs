use crate::{Decoder, Error, Event, Output, OwnedEvent};
use std::io::{self, Read};

// how many bytes are read at a time
const PIECE: usize = 65_536;

/// The events of a whole stream, as a file or a pipe, which is read as they are asked for. [`events`] makes it.
///
/// As an iterator it gives each event with its picture in memory of its own; [`Events::lend_next`] lends it instead. An error is that of
/// reading, or want of memory ([`io::ErrorKind::OutOfMemory`]), and ends it.
pub struct Events<R> {
    source: R,
    decoder: Decoder,
    piece: Vec<u8>,
    // what of the piece is not fed yet
    start: usize,
    end: usize,
    // all was read, or an error was told
    ended: bool,
}

/// The events of a whole stream, one after another.
///
/// ```
/// use avcdec::{Output, OwnedEvent};
/// # let source = std::io::Cursor::new([0u8, 0, 1, 0xE7, 0x42]);
/// for event in avcdec::events(source, Output::Full)? {
///     match event? {
///         OwnedEvent::Picture(picture) => println!("{} bytes", picture.i420().len()),
///         OwnedEvent::Refused(refusal) => eprintln!("{refusal}"),
///     }
/// }
/// # Ok::<(), std::io::Error>(())
/// ```
pub fn events<R: Read>(source: R, output: Output) -> Result<Events<R>, Error> {
    let decoder = Decoder::new(output)?;
    let mut piece = Vec::new();
    piece
        .try_reserve_exact(PIECE)
        .map_err(|_| Error::OutOfMemory)?;
    piece.resize(PIECE, 0);
    Ok(Events {
        source,
        decoder,
        piece,
        start: 0,
        end: 0,
        ended: false,
    })
}

impl<R: Read> Events<R> {
    /// The next event, if there is one. Its picture is lent until the next call, and not copied.
    pub fn lend_next(&mut self) -> io::Result<Option<Event<'_>>> {
        loop {
            let event = self.decoder.next_event()?;
            if self.decoder.is_one(&event) {
                return Ok(self.decoder.event(&event));
            }
            if !self.go_on()? {
                return Ok(None);
            }
        }
    }

    // Feeds up to where the next unit has ended, reads where nothing is left to be fed, and flushes at the end; false behind it.
    fn go_on(&mut self) -> io::Result<bool> {
        if self.start < self.end {
            self.start += self.decoder.feed_unit(&self.piece[self.start..self.end])?;
            return Ok(true);
        }
        if self.ended {
            return Ok(false);
        }
        match self.source.read(&mut self.piece) {
            Ok(length) => (self.start, self.end) = (0, length),
            Err(error) if error.kind() == io::ErrorKind::Interrupted => return Ok(true),
            Err(error) => return Err(error),
        }
        if self.end == 0 {
            self.ended = true;
            self.decoder.flush()?;
        }
        Ok(true)
    }
}

impl<R: Read> Iterator for Events<R> {
    type Item = io::Result<OwnedEvent>;

    fn next(&mut self) -> Option<io::Result<OwnedEvent>> {
        let event = self
            .lend_next()
            .and_then(|event| Ok(event.map(|event| event.keep()).transpose()?));
        if event.is_err() {
            (self.start, self.end, self.ended) = (0, 0, true);
            self.decoder.reset();
        }
        event.transpose()
    }
}

impl<R> std::fmt::Debug for Events<R> {
    fn fmt(&self, f: &mut std::fmt::Formatter<'_>) -> std::fmt::Result {
        f.debug_struct("Events").finish_non_exhaustive()
    }
}

/// Decodes a whole stream, as a file or a pipe, and hands on each event as it comes. An error is one of reading, of `each`, or want of
/// memory.
///
/// ```
/// # let stream = std::io::Cursor::new([0u8, 0, 1, 0xE7, 0x42]);
/// avcdec::decode(stream, avcdec::Output::Full, |event| {
///     println!("{event:?}");
///     Ok(())
/// })?;
/// # Ok::<(), std::io::Error>(())
/// ```
pub fn decode(
    source: impl Read,
    output: Output,
    mut each: impl FnMut(Event<'_>) -> io::Result<()>,
) -> io::Result<()> {
    let mut events = events(source, output)?;
    while let Some(event) = events.lend_next()? {
        each(event)?;
    }
    Ok(())
}
