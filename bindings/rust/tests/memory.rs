//! Want of memory is an error and no abort: each growth of this crate, and then of the library, is refused once.

use avcdec::{Decoder, Error, Event, Output, OwnedEvent, OwnedPicture, Taken};
use std::alloc::{GlobalAlloc, Layout, System};
use std::cell::Cell;
use std::ffi::c_void;
use std::io;
use std::sync::atomic::{AtomicU64, Ordering};

const ALL: u64 = u64::MAX;

thread_local! {
    // how many growths of this thread are granted before one is refused
    static GRANTED: Cell<u64> = const { Cell::new(ALL) };
}

struct RefusesOne;

fn is_granted() -> bool {
    GRANTED.with(|granted| match granted.get() {
        ALL => true,
        0 => {
            granted.set(ALL);
            false
        }
        left => {
            granted.set(left - 1);
            true
        }
    })
}

unsafe impl GlobalAlloc for RefusesOne {
    unsafe fn alloc(&self, layout: Layout) -> *mut u8 {
        if is_granted() {
            System.alloc(layout)
        } else {
            std::ptr::null_mut()
        }
    }

    unsafe fn dealloc(&self, block: *mut u8, layout: Layout) {
        System.dealloc(block, layout);
    }
}

#[global_allocator]
static HEAP: RefusesOne = RefusesOne;

// the library's heap, which the test chooses
#[repr(C)]
struct Heap {
    allocate: extern "C" fn(usize) -> *mut c_void,
    reallocate: extern "C" fn(*mut c_void, usize) -> *mut c_void,
    release: unsafe extern "C" fn(*mut c_void),
}

extern "C" {
    fn avcdec_use_heap(heap: *const Heap);
    fn malloc(size: usize) -> *mut c_void;
    fn realloc(block: *mut c_void, size: usize) -> *mut c_void;
    fn free(block: *mut c_void);
}

static LIBRARY_GRANTED: AtomicU64 = AtomicU64::new(ALL);

fn library_is_granted() -> bool {
    let left = LIBRARY_GRANTED.load(Ordering::SeqCst);
    let next = match left {
        ALL | 0 => ALL,
        _ => left - 1,
    };
    LIBRARY_GRANTED.store(next, Ordering::SeqCst);
    left != 0
}

extern "C" fn allocate(size: usize) -> *mut c_void {
    if library_is_granted() {
        unsafe { malloc(size) }
    } else {
        std::ptr::null_mut()
    }
}

extern "C" fn reallocate(block: *mut c_void, size: usize) -> *mut c_void {
    if library_is_granted() {
        unsafe { realloc(block, size) }
    } else {
        std::ptr::null_mut()
    }
}

// A picture, which waits for the end, and a refusal, which does not.
const STREAM: [u8; 31] = [
    0, 0, 0, 1, 0x67, 0x42, 0xC0, 0x0A, 0xDA, 0x71, 0, 0, 0, 1, 0x68, 0xCE, 0x38, 0x80, 0, 0, 1,
    0x65, 0x88, 0x84, 0x93, 0xC0, 0, 0, 1, 0xE7, 0x42,
];

// What the stream gives, without memory of the test's own: how many samples are 128, and the letters of the refusals' texts.
#[derive(Debug, Default, PartialEq, Eq)]
struct Given {
    samples: usize,
    letters: usize,
}

impl std::fmt::Write for Given {
    fn write_str(&mut self, text: &str) -> std::fmt::Result {
        self.letters += text.len();
        Ok(())
    }
}

impl Given {
    fn add(&mut self, event: Event<'_>) {
        match event {
            Event::Picture(picture) => {
                let rows = picture.planes().into_iter().flat_map(|plane| plane.rows());
                self.samples += rows.flatten().filter(|sample| **sample == 128).count();
            }
            Event::Refused(refusal) => std::fmt::write(self, format_args!("{refusal}")).unwrap(),
        }
    }
}

const WHOLE: Given = Given {
    samples: 384,
    letters: "refused unit 3: 4 ForbiddenBit".len(),
};

fn by_events() -> io::Result<Given> {
    let mut given = Given::default();
    for event in avcdec::events(&STREAM[..], Output::Full)? {
        match event? {
            OwnedEvent::Picture(picture) => given.add(Event::Picture(picture.picture())),
            OwnedEvent::Refused(refusal) => given.add(Event::Refused(refusal)),
        }
    }
    Ok(given)
}

fn by_decode() -> io::Result<Given> {
    let mut given = Given::default();
    avcdec::decode(&STREAM[..], Output::Full, |event| {
        if let Event::Picture(picture) = event {
            picture.to_i420()?;
        }
        given.add(event);
        Ok(())
    })?;
    Ok(given)
}

fn is_want_of_memory(error: &io::Error) -> bool {
    error.kind() == io::ErrorKind::OutOfMemory
}

// Refuses one growth after another, which `refuse` sets, until there is none left to refuse; answers how many there were.
fn each_refused(
    way: fn() -> io::Result<Given>,
    refuse: impl Fn(u64),
    is_left: impl Fn() -> bool,
) -> u64 {
    for count in 0.. {
        refuse(count);
        let given = way();
        let none_refused = is_left();
        refuse(ALL);
        match given {
            Ok(given) => {
                assert_eq!(given, WHOLE);
                assert!(
                    none_refused,
                    "growth {count} was refused, and nothing was said"
                );
                return count;
            }
            Err(error) => assert!(is_want_of_memory(&error), "{error:?}"),
        }
    }
    unreachable!()
}

#[test]
fn each_growth_refused() {
    for way in [by_events, by_decode] {
        let growths = each_refused(
            way,
            |count| GRANTED.with(|granted| granted.set(count)),
            || GRANTED.with(Cell::get) != ALL,
        );
        assert!(growths >= 2, "{growths}");
    }
    let heap = Heap {
        allocate,
        reallocate,
        release: free,
    };
    unsafe { avcdec_use_heap(&heap) };
    for way in [by_events, by_decode] {
        let growths = each_refused(
            way,
            |count| LIBRARY_GRANTED.store(count, Ordering::SeqCst),
            || LIBRARY_GRANTED.load(Ordering::SeqCst) != ALL,
        );
        assert!(growths >= 5, "{growths}");
    }

    // an error takes no memory itself
    for error in [Error::OutOfMemory, Error::Ended] {
        GRANTED.with(|granted| granted.set(0));
        let told = io::Error::from(error);
        let left = GRANTED.with(|granted| granted.replace(ALL));
        assert_eq!((left, told.get_ref().is_none()), (0, true), "{error}");
    }

    // a decoder that wants memory answers so until it is reset
    let mut decoder = Decoder::new(Output::Full).unwrap();
    LIBRARY_GRANTED.store(0, Ordering::SeqCst);
    assert_eq!(decoder.feed(&STREAM), Err(Error::OutOfMemory));
    assert_eq!(decoder.take(), Err(Error::OutOfMemory));
    assert_eq!(decoder.flush(), Err(Error::OutOfMemory));
    decoder.reset();
    decoder.feed(&STREAM).unwrap();
    decoder.flush().unwrap();

    // a picture for whose copy there is no memory is taken by the next call
    assert!(matches!(decoder.take(), Ok(Some(Event::Refused(_)))));
    let mut picture = OwnedPicture::new();
    GRANTED.with(|granted| granted.set(0));
    assert_eq!(decoder.take_into(&mut picture), Err(Error::OutOfMemory));
    assert!(picture.i420().is_empty());
    assert_eq!(decoder.take_into(&mut picture), Ok(Some(Taken::Picture)));
    assert_eq!(picture.i420(), [128; 384]);
    assert_eq!(decoder.take(), Ok(None));
    drop(decoder);
    unsafe { avcdec_use_heap(std::ptr::null()) };
}
