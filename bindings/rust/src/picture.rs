use crate::{c, Error, PictureInfo};
use std::fmt;
use std::hash::{Hash, Hasher};
use std::slice;

// what is told of a picture beside its planes
#[derive(Clone, Copy)]
pub(crate) struct About {
    pub(crate) coded: (usize, usize),
    pub(crate) value: u64,
    pub(crate) info: PictureInfo,
}

impl About {
    // of an empty one
    const NOTHING: About = About {
        coded: (0, 0),
        value: 0,
        info: PictureInfo::NOTHING,
    };
}

/// What is shown of a decoded picture: the crop window, at 4:2:0 with samples of eight bits.
///
/// Its planes lie in the decoder's memory and are not copied: it borrows the decoder, until the next call. To keep it, copy it by
/// [`Picture::keep`], [`Picture::to_i420`] or [`Picture::copy_i420`]. Two pictures are equal where their sizes are and they show the same.
#[derive(Clone, Copy)]
pub struct Picture<'a> {
    about: About,
    planes: [Plane<'a>; 3],
}

/// One plane of a picture. Two planes are equal where they show the same samples.
#[derive(Clone, Copy)]
pub struct Plane<'a> {
    /// From the first sample of the first row to the last of the last. What stands between two rows is not shown.
    pub samples: &'a [u8],
    /// How many samples lie from one row to the next.
    pub stride: usize,
    /// How many samples a row shows.
    pub width: usize,
    /// How many rows there are.
    pub height: usize,
}

impl<'a> Plane<'a> {
    // The rows that were lent stay as they are for 'a.
    pub(crate) unsafe fn of_rows(rows: &c::Rows) -> Plane<'a> {
        let (width, height) = (rows.columns as usize, rows.rows as usize);
        let samples = if width == 0 || height == 0 {
            &[]
        } else {
            slice::from_raw_parts(rows.samples, (height - 1) * rows.stride + width)
        };
        Plane {
            samples,
            stride: rows.stride,
            width,
            height,
        }
    }

    /// The samples of a row; it panics where there is no such row.
    #[must_use]
    pub fn row(&self, y: usize) -> &'a [u8] {
        assert!(y < self.height, "row {y} of {}", self.height);
        if self.width == 0 {
            return &[];
        }
        &self.samples[y * self.stride..][..self.width]
    }

    /// The rows, from the top.
    pub fn rows(self) -> impl Iterator<Item = &'a [u8]> {
        (0..self.height).map(move |y| self.row(y))
    }
}

impl PartialEq for Plane<'_> {
    fn eq(&self, other: &Plane<'_>) -> bool {
        (self.width, self.height) == (other.width, other.height) && self.rows().eq(other.rows())
    }
}

impl Eq for Plane<'_> {}

impl fmt::Debug for Plane<'_> {
    fn fmt(&self, f: &mut fmt::Formatter<'_>) -> fmt::Result {
        write!(f, "Plane({}x{})", self.width, self.height)
    }
}

impl PartialEq for Picture<'_> {
    fn eq(&self, other: &Picture<'_>) -> bool {
        (self.coded_size(), self.planes) == (other.coded_size(), other.planes)
    }
}

impl Eq for Picture<'_> {}

impl fmt::Debug for Picture<'_> {
    fn fmt(&self, f: &mut fmt::Formatter<'_>) -> fmt::Result {
        write!(f, "Picture({}x{})", self.width(), self.height())
    }
}

impl<'a> Picture<'a> {
    pub(crate) fn new(about: About, planes: [Plane<'a>; 3]) -> Picture<'a> {
        Picture { about, planes }
    }

    /// In luma samples.
    #[must_use]
    pub fn width(&self) -> usize {
        self.luma().width
    }

    /// In luma samples.
    #[must_use]
    pub fn height(&self) -> usize {
        self.luma().height
    }

    /// Width and height as coded, without cropping, in luma samples.
    #[must_use]
    pub fn coded_size(&self) -> (usize, usize) {
        self.about.coded
    }

    /// What is known of it beside its samples.
    #[must_use]
    pub fn info(&self) -> PictureInfo {
        self.about.info
    }

    /// The value that [`Decoder::mark`](crate::Decoder::mark) gave to the unit of its first slice; 0 where no mark was made before it.
    #[must_use]
    pub fn value(&self) -> u64 {
        self.about.value
    }

    /// The luma samples.
    #[must_use]
    pub fn luma(&self) -> Plane<'a> {
        self.planes[0]
    }

    /// The Cb samples: half as many columns and rows.
    #[must_use]
    pub fn cb(&self) -> Plane<'a> {
        self.planes[1]
    }

    /// The Cr samples: half as many columns and rows.
    #[must_use]
    pub fn cr(&self) -> Plane<'a> {
        self.planes[2]
    }

    /// Luma, Cb, Cr.
    #[must_use]
    pub fn planes(&self) -> [Plane<'a>; 3] {
        self.planes
    }

    /// How many bytes [`Picture::copy_i420`] fills.
    #[must_use]
    pub fn i420_len(&self) -> usize {
        self.planes
            .iter()
            .map(|plane| plane.width * plane.height)
            .sum()
    }

    /// Copies luma, Cb and Cr, each row by row without gaps. It panics where `out` has another length than
    /// [`Picture::i420_len`].
    pub fn copy_i420(&self, out: &mut [u8]) {
        assert_eq!(out.len(), self.i420_len(), "the length of I420");
        let mut rest = out;
        for row in self.planes.iter().flat_map(|plane| plane.rows()) {
            let (to, behind) = rest.split_at_mut(row.len());
            to.copy_from_slice(row);
            rest = behind;
        }
    }

    /// Luma, Cb and Cr, each row by row without gaps, in memory of their own.
    pub fn to_i420(&self) -> Result<Vec<u8>, Error> {
        let mut i420 = Vec::new();
        self.add_i420(&mut i420)?;
        Ok(i420)
    }

    /// The picture in memory of its own.
    pub fn keep(&self) -> Result<OwnedPicture, Error> {
        let mut to = OwnedPicture::new();
        self.keep_in(&mut to)?;
        Ok(to)
    }

    /// The same in memory that is there already and is used again; it grows where the picture is larger. Where it can't, `to` is empty.
    pub fn keep_in(&self, to: &mut OwnedPicture) -> Result<(), Error> {
        to.i420.clear();
        (to.about, to.shown) = (About::NOTHING, (0, 0));
        self.add_i420(&mut to.i420)?;
        (to.about, to.shown) = (self.about, (self.width(), self.height()));
        Ok(())
    }

    // to no bytes
    fn add_i420(&self, to: &mut Vec<u8>) -> Result<(), Error> {
        to.try_reserve_exact(self.i420_len())
            .map_err(|_| Error::OutOfMemory)?;
        for row in self.planes.iter().flat_map(|plane| plane.rows()) {
            to.extend_from_slice(row);
        }
        Ok(())
    }
}

/// What is shown of a decoded picture, in memory of its own: I420, without gaps. [`Picture::keep`], [`Picture::keep_in`] and
/// [`Decoder::take_into`](crate::Decoder::take_into) fill it. Two are equal as two [`Picture`]s are.
pub struct OwnedPicture {
    about: About,
    shown: (usize, usize),
    i420: Vec<u8>,
}

impl OwnedPicture {
    /// An empty one, of 0 by 0 samples, which takes no memory.
    #[must_use]
    pub const fn new() -> OwnedPicture {
        OwnedPicture {
            about: About::NOTHING,
            shown: (0, 0),
            i420: Vec::new(),
        }
    }

    /// The picture with its planes.
    #[must_use]
    pub fn picture(&self) -> Picture<'_> {
        let (width, height) = self.shown;
        let (luma, chroma) = self.i420.split_at(width * height);
        let (cb, cr) = chroma.split_at(chroma.len() / 2);
        let plane = |samples, parts| Plane {
            samples,
            stride: width / parts,
            width: width / parts,
            height: height / parts,
        };
        Picture::new(self.about, [plane(luma, 1), plane(cb, 2), plane(cr, 2)])
    }

    /// Luma, Cb and Cr, each row by row without gaps.
    #[must_use]
    pub fn i420(&self) -> &[u8] {
        &self.i420
    }

    /// The same, given away.
    #[must_use]
    pub fn into_i420(self) -> Vec<u8> {
        self.i420
    }
}

impl Default for OwnedPicture {
    fn default() -> OwnedPicture {
        OwnedPicture::new()
    }
}

impl PartialEq for OwnedPicture {
    fn eq(&self, other: &OwnedPicture) -> bool {
        self.picture() == other.picture()
    }
}

impl Eq for OwnedPicture {}

impl Hash for OwnedPicture {
    fn hash<H: Hasher>(&self, state: &mut H) {
        (self.about.coded, self.shown, &self.i420).hash(state);
    }
}

impl fmt::Debug for OwnedPicture {
    fn fmt(&self, f: &mut fmt::Formatter<'_>) -> fmt::Result {
        write!(f, "OwnedPicture({}x{})", self.shown.0, self.shown.1)
    }
}
