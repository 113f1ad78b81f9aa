//! decode IN OUT: decodes a byte stream (Annex B) and writes its pictures as I420, each as soon as it goes out. Refusals go to standard
//! error. Status: 0 all went well, 1 something was refused, 3 a file cannot be read or written, or there was no memory.

use avcdec::{Event, Output, Picture};
use std::fs::File;
use std::io::{self, BufWriter, Write};
use std::process::ExitCode;

// Writes what is shown, from where it lies: luma, Cb, Cr.
fn write_picture(picture: Picture<'_>, out: &mut impl Write) -> io::Result<()> {
    picture
        .planes()
        .iter()
        .flat_map(|plane| plane.rows())
        .try_for_each(|row| out.write_all(row))
}

// Whether something was refused.
fn decode(from: &str, to: &str) -> io::Result<bool> {
    let mut out = BufWriter::with_capacity(262_144, File::create(to)?);
    let mut refused = false;
    avcdec::decode(File::open(from)?, Output::Full, |event| match event {
        Event::Picture(picture) => write_picture(picture, &mut out),
        Event::Refused(refusal) => {
            eprintln!("{refusal}");
            refused = true;
            Ok(())
        }
    })?;
    out.flush()?;
    Ok(refused)
}

fn main() -> ExitCode {
    let words: Vec<String> = std::env::args().collect();
    let [_, from, to] = words.as_slice() else {
        eprintln!("usage: decode IN OUT");
        return ExitCode::from(2);
    };
    match decode(from, to) {
        Ok(false) => ExitCode::SUCCESS,
        Ok(true) => ExitCode::from(1),
        Err(error) => {
            eprintln!("{error}");
            ExitCode::from(3)
        }
    }
}
