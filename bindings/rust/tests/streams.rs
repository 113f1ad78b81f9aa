//! Streams with what must come out: those of the repository's vectors/cases, of tests/cases where the crate was packed with them, or of the
//! folder `cases` of AVCDEC_VECTORS.

use avcdec::{
    Decoder, Error, Event, Output, OwnedEvent, OwnedPicture, PictureInfo, Refusal, Taken,
};
use std::fs;
use std::io::{self, Read};
use std::path::{Path, PathBuf};

// what a decoder hands out: how many pictures, all samples, and the refusals as lines
#[derive(Debug, Default, PartialEq, Eq)]
struct Given {
    pictures: usize,
    samples: Vec<u8>,
    refusals: Vec<String>,
}

impl Given {
    fn add(&mut self, event: Event<'_>) {
        match event {
            Event::Picture(picture) => {
                self.pictures += 1;
                self.samples.extend(picture.to_i420().unwrap());
            }
            Event::Refused(refusal) => self.refusals.push(refusal.to_string()),
        }
    }

    fn take_all(&mut self, decoder: &mut Decoder) {
        while let Some(event) = decoder.take().unwrap() {
            self.add(event);
        }
    }
}

fn decode(bytes: &[u8], piece: usize) -> Given {
    let mut decoder = Decoder::new(Output::Full).unwrap();
    let mut given = Given::default();
    for part in bytes.chunks(piece) {
        decoder.feed(part).unwrap();
        given.take_all(&mut decoder);
    }
    decoder.flush().unwrap();
    given.take_all(&mut decoder);
    assert_eq!(decoder.feed(&[]), Err(Error::Ended));
    assert_eq!(decoder.feed_unit(&[0]), Err(Error::Ended));
    given
}

fn decode_by_units(bytes: &[u8]) -> Given {
    let mut given = Given::default();
    avcdec::decode(bytes, Output::Full, |event| {
        given.add(event);
        Ok(())
    })
    .unwrap();
    given
}

// by the iterator
fn decode_by_events(bytes: &[u8]) -> Given {
    let mut given = Given::default();
    for event in avcdec::events(bytes, Output::Full).unwrap() {
        match event.unwrap() {
            OwnedEvent::Picture(picture) => given.add(Event::Picture(picture.picture())),
            OwnedEvent::Refused(refusal) => given.add(Event::Refused(refusal)),
        }
    }
    given
}

// into one picture's memory
fn decode_into(bytes: &[u8]) -> Given {
    let mut decoder = Decoder::new(Output::Full).unwrap();
    decoder.feed(bytes).unwrap();
    decoder.flush().unwrap();
    let mut given = Given::default();
    let mut picture = OwnedPicture::new();
    while let Some(taken) = decoder.take_into(&mut picture).unwrap() {
        match taken {
            Taken::Picture => given.add(Event::Picture(picture.picture())),
            Taken::Refused(refusal) => given.add(Event::Refused(refusal)),
        }
    }
    given
}

fn cases() -> PathBuf {
    if let Ok(vectors) = std::env::var("AVCDEC_VECTORS") {
        return Path::new(&vectors).join("cases");
    }
    let here = Path::new(env!("CARGO_MANIFEST_DIR"));
    let packed = here.join("tests/cases");
    if packed.is_dir() {
        packed
    } else {
        here.join("../../vectors/cases")
    }
}

fn streams() -> Vec<PathBuf> {
    let mut streams: Vec<PathBuf> = fs::read_dir(cases())
        .unwrap()
        .map(|entry| entry.unwrap().path())
        .filter(|path| path.extension().map_or(false, |kind| kind == "264"))
        .collect();
    streams.sort();
    assert!(streams.len() > 50, "{} streams", streams.len());
    streams
}

#[test]
fn refusals_are_those_expected_however_the_stream_is_cut() {
    for path in streams() {
        let bytes = fs::read(&path).unwrap();
        let whole = decode(&bytes, bytes.len().max(1));
        let expected: Vec<String> = fs::read_to_string(path.with_extension("refused"))
            .unwrap_or_default()
            .lines()
            .map(String::from)
            .collect();
        assert_eq!(whole.refusals, expected, "{path:?}");
        assert_eq!(decode(&bytes, 7), whole, "{path:?}");
        assert_eq!(decode_by_units(&bytes), whole, "{path:?}");
        assert_eq!(decode_by_events(&bytes), whole, "{path:?}");
        assert_eq!(decode_into(&bytes), whole, "{path:?}");
    }
}

#[test]
fn a_cropped_picture_has_its_planes() {
    // 16x16, of which 10x10 are shown: all samples are 128
    let stream = [
        0u8, 0, 0, 1, 0x67, 0x42, 0xC0, 0x0A, 0xDA, 0x76, 0x49, 0x10, 0, 0, 0, 1, 0x68, 0xCE, 0x38,
        0x80, 0, 0, 1, 0x65, 0x88, 0x84, 0x93, 0xC0,
    ];
    let mut decoder = Decoder::new(Output::Early).unwrap();
    decoder.feed(&stream).unwrap();
    assert_eq!(decoder.take(), Ok(None));
    decoder.end_access_unit().unwrap();
    decoder.flush().unwrap();
    let Ok(Some(Event::Picture(picture))) = decoder.take() else {
        panic!("no picture");
    };
    assert_eq!(
        (picture.width(), picture.height(), picture.coded_size()),
        (10, 10, (16, 16))
    );
    assert_eq!(picture.to_i420(), Ok(vec![128; 150]));
    let mut copied = [0; 150];
    picture.copy_i420(&mut copied);
    assert_eq!((copied, picture.i420_len()), ([128; 150], 150));
    assert!(picture.luma().rows().all(|row| row == [128; 10]));
    let kept = picture.keep().unwrap();
    assert_eq!((kept.picture(), kept.i420()), (picture, &[128; 150][..]));
    assert_eq!(kept.into_i420(), [128; 150]);
    assert_eq!(
        picture
            .planes()
            .map(|plane| (plane.width, plane.height, plane.rows().count())),
        [(10, 10, 10), (5, 5, 5), (5, 5, 5)]
    );
    assert_eq!(decoder.turns(), 1);
    decoder.reset();
    assert_eq!(decoder.turns(), 0);
}

#[test]
fn a_refusal_names_unit_and_fault() {
    let mut decoder = Decoder::new(Output::Full).unwrap();
    decoder
        .feed(&[0, 0, 0, 1, 0x67, 0x64, 0x00, 0x0A, 0xDA, 0x71])
        .unwrap();
    decoder.flush().unwrap();
    let Ok(Some(Event::Refused(Refusal {
        unit,
        fault,
        value: 0,
    }))) = decoder.take()
    else {
        panic!("no refusal");
    };
    assert_eq!((unit, fault.number(), &*fault.name()), (0, 10, "Profile"));
    assert_eq!(
        format!("{fault}, {:>8}", fault.name()),
        "10 Profile,  Profile"
    );
}

#[test]
fn feeding_stops_where_a_unit_has_ended() {
    let two_units = [0u8, 0, 1, 0x67, 0x42, 0, 0, 1, 0x68, 0xCE];
    let mut decoder = Decoder::new(Output::Full).unwrap();
    let used = decoder.feed_unit(&two_units).unwrap();
    assert!((7..=8).contains(&used), "{used}");
    assert_eq!(
        decoder.feed_unit(&two_units[used..]),
        Ok(two_units.len() - used)
    );
    assert_eq!(decoder.feed_unit(&[]), Ok(0));
}

#[test]
fn a_decoder_goes_from_thread_to_thread() {
    let path = streams().remove(0);
    let bytes = fs::read(path).unwrap();
    let mut decoder = Decoder::new(Output::Full).unwrap();
    let mut given = Given::default();
    for part in bytes.chunks(100) {
        (decoder, given) = std::thread::spawn({
            let part = part.to_vec();
            move || {
                decoder.feed(&part).unwrap();
                given.take_all(&mut decoder);
                (decoder, given)
            }
        })
        .join()
        .unwrap();
    }
    decoder.flush().unwrap();
    given.take_all(&mut decoder);
    assert_eq!(given, decode_by_units(&bytes));
}

// gives some bytes, and fails then
struct Failing<'a>(&'a [u8]);

impl Read for Failing<'_> {
    fn read(&mut self, to: &mut [u8]) -> io::Result<usize> {
        match self.0.read(to)? {
            0 => Err(io::ErrorKind::ConnectionReset.into()),
            length => Ok(length),
        }
    }
}

#[test]
fn a_fault_of_reading_is_the_last_event() {
    // a picture, which goes out at the next IDR picture, and a refusal
    let stream = [
        0u8, 0, 0, 1, 0x67, 0x42, 0xC0, 0x0A, 0xDA, 0x71, 0, 0, 0, 1, 0x68, 0xCE, 0x38, 0x80, 0, 0,
        1, 0x65, 0x88, 0x84, 0x93, 0xC0, 0, 0, 1, 0xE7, 0x42, 0, 0, 1,
    ];
    let mut events = avcdec::events(Failing(&stream), Output::Full).unwrap();
    let Some(Ok(OwnedEvent::Refused(refusal))) = events.next() else {
        panic!("no refusal");
    };
    assert_eq!(refusal.to_string(), "refused unit 3: 4 ForbiddenBit");
    let Some(Err(error)) = events.next() else {
        panic!("no fault");
    };
    assert_eq!(error.kind(), io::ErrorKind::ConnectionReset);
    assert!(events.next().is_none() && events.next().is_none());
}

// a packet: what is given to it as value, and its bytes
fn packets<'a>(bytes: &'a [u8], places: &[usize]) -> Vec<(u64, &'a [u8])> {
    let ends = places.iter().skip(1).copied().chain([bytes.len()]);
    places
        .iter()
        .zip(ends)
        .map(|(begin, end)| (*begin as u64, &bytes[*begin..end]))
        .collect()
}

// The packets begin where libavcodec's parser cuts the stream, and its decoder says which packet each picture is of. The unit, frame_num
// and PicOrderCnt (type 0) are those that its trace of the headers tells.
#[test]
fn values_come_back_with_their_pictures() {
    // value, unit, nal_unit_type 5, frame_num, PicOrderCnt
    let expected = [
        (0, 2, true, 0, 0),
        (34, 4, false, 2, 2),
        (26, 3, false, 1, 4),
        (42, 5, true, 0, 0),
        (58, 7, false, 2, 2),
        (50, 6, false, 1, 4),
    ];
    let bytes = fs::read(cases().join("order_type_0_twice.264")).unwrap();
    let mut told = Vec::new();
    let mut add = |event: Event<'_>| {
        let Event::Picture(picture) = event else {
            panic!("{event:?}");
        };
        let (value, info) = (picture.value(), picture.info());
        let kept = picture.keep()?;
        let kept = kept.picture();
        assert_eq!(
            (event.value(), kept.value(), kept.info()),
            (value, value, info)
        );
        told.push((
            value,
            info.unit,
            info.is_idr,
            info.frame_num,
            info.pic_order_cnt,
        ));
        Ok::<(), Error>(())
    };
    let mut decoder = Decoder::new(Output::Full).unwrap();
    let found: Vec<&[u8]> = avcdec::access_units(&bytes).collect();
    let packets = packets(&bytes, &[0, 26, 34, 42, 50, 58]);
    assert!(packets.iter().map(|(_, packet)| packet).eq(&found));
    for (value, packet) in packets {
        decoder.mark(value).unwrap();
        decoder.decode(packet, &mut add).unwrap();
    }
    decoder.finish(&mut add).unwrap();
    assert_eq!(told, expected);
}

// a 16x16 picture whose VUI parameters are all given, each with a number of its own, as ffmpeg's trace_headers tells
const WITH_VUI: [u8; 50] = [
    0, 0, 0, 1, 0x67, 0x42, 0xC0, 0x0A, 0xDA, 0x73, 0xFF, 0, 0x21, 0, 0x23, 0x6E, 0x08, 0x0A, 0x0D,
    0x21, 0x20, 0, 0, 3, 0, 0xE0, 0, 0, 0x0B, 0x41, 0xE1, 0x10, 0x8A, 0x50, 0, 0, 0, 1, 0x68, 0xCE,
    0x38, 0x80, 0, 0, 1, 0x65, 0x88, 0x84, 0x93, 0xC0,
];

fn info_of(stream: &[u8]) -> PictureInfo {
    let mut decoder = Decoder::new(Output::Full).unwrap();
    decoder.feed(stream).unwrap();
    decoder.flush().unwrap();
    let Ok(Some(Event::Picture(picture))) = decoder.take() else {
        panic!("no picture");
    };
    picture.info()
}

#[test]
fn the_info_has_what_the_stream_says_of_showing() {
    let given = info_of(&WITH_VUI);
    assert_eq!((given.unit, given.is_idr), (2, true));
    assert_eq!((given.sar_width, given.sar_height), (33, 35));
    assert!(given.video_full_range_flag);
    assert_eq!(given.colour_primaries, 4);
    assert_eq!(given.transfer_characteristics, 5);
    assert_eq!(given.matrix_coefficients, 6);
    assert_eq!(given.chroma_sample_loc_type, 3);
    assert_eq!((given.num_units_in_tick, given.time_scale), (7, 90));
    assert_eq!(given.max_num_reorder_frames, Some(1));

    // without VUI parameters: what the standard infers (E.2.1)
    let mut without = WITH_VUI[..9].to_vec();
    without.push(0x71);
    without.extend(&WITH_VUI[34..]);
    let inferred = info_of(&without);
    assert_eq!((inferred.sar_width, inferred.sar_height), (0, 0));
    assert!(!inferred.video_full_range_flag);
    assert_eq!(inferred.colour_primaries, 2);
    assert_eq!(inferred.transfer_characteristics, 2);
    assert_eq!(inferred.matrix_coefficients, 2);
    assert_eq!(inferred.chroma_sample_loc_type, 0);
    assert_eq!((inferred.num_units_in_tick, inferred.time_scale), (0, 0));
    assert_eq!(inferred.max_num_reorder_frames, None);
}

#[test]
fn a_value_that_never_comes_is_told_behind_the_next_idr_picture() {
    let bytes = fs::read(cases().join("order_type_0_twice.264")).unwrap();
    let mut decoder = Decoder::new(Output::Full).unwrap();
    // the parameter sets are a packet of their own
    for (value, packet) in packets(&bytes, &[0, 18, 26, 34, 42]) {
        decoder.mark(value).unwrap();
        decoder.feed(packet).unwrap();
    }
    decoder.flush().unwrap();
    assert_eq!(decoder.take_dropped(), None);
    assert_eq!(decoder.take().unwrap().map(|event| event.value()), Some(18));
    assert_eq!(decoder.take_dropped(), Some(0));
    assert_eq!(decoder.take_dropped(), None);
    decoder.take_all(|_event| Ok::<(), Error>(())).unwrap();
    assert_eq!(decoder.take_dropped(), None);
}

#[test]
fn a_refusal_has_the_value_of_its_unit() {
    let mut decoder = Decoder::new(Output::Full).unwrap();
    decoder.feed(&[0, 0, 1, 0xE7]).unwrap();
    decoder.mark(u64::MAX).unwrap();
    decoder.feed(&[0x42, 0, 0, 1, 0xE8, 0x42]).unwrap();
    decoder.flush().unwrap();
    let mut told = Vec::new();
    decoder
        .take_all(|event| {
            told.push((event.value(), event.keep()?));
            Ok::<(), Error>(())
        })
        .unwrap();
    let refusal = |event: &OwnedEvent| match event {
        OwnedEvent::Refused(refusal) => (refusal.unit, refusal.value),
        OwnedEvent::Picture(picture) => panic!("{picture:?}"),
    };
    let told: Vec<(u64, (u64, u64))> = told
        .iter()
        .map(|(value, event)| (*value, refusal(event)))
        .collect();
    assert_eq!(told, [(0, (0, 0)), (u64::MAX, (1, u64::MAX))]);
    decoder.reset();
    decoder.feed(&[0, 0, 1, 0xE7, 0x42]).unwrap();
    decoder.flush().unwrap();
    assert_eq!(decoder.take().unwrap().map(|event| event.value()), Some(0));
}
