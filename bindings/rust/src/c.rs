//! The C interface: include/avcdec.h.

use std::ffi::c_void;
use std::os::raw::c_char;

pub const OK: u32 = 0;
pub const OUT_OF_MEMORY: u32 = 1;
pub const ENDED: u32 = 2;

pub const NOTHING: u32 = 0;
pub const PICTURE: u32 = 1;
pub const REFUSED: u32 = 2;

pub const NAME_SIZE: usize = 32;

#[repr(C)]
pub struct Decoder {
    open: bool,
    state: *mut c_void,
}

impl Decoder {
    pub fn closed() -> Decoder {
        Decoder {
            open: false,
            state: std::ptr::null_mut(),
        }
    }
}

#[repr(C)]
#[derive(Clone, Copy, Default)]
pub struct Event {
    pub kind: u32,
    pub fault: u32,
    pub unit: u64,
    pub width: u32,
    pub height: u32,
    pub crop_left: u32,
    pub crop_right: u32,
    pub crop_top: u32,
    pub crop_bottom: u32,
    pub value: u64,
}

#[repr(C)]
#[derive(Clone, Copy, Default)]
pub struct Info {
    pub unit: u64,
    pub pic_order_cnt: i32,
    pub is_idr: u32,
    pub frame_num: u32,
    pub sar_width: u32,
    pub sar_height: u32,
    pub video_full_range_flag: u32,
    pub colour_primaries: u32,
    pub transfer_characteristics: u32,
    pub matrix_coefficients: u32,
    pub chroma_sample_loc_type: u32,
    pub num_units_in_tick: u32,
    pub time_scale: u32,
    pub has_max_num_reorder_frames: u32,
    pub max_num_reorder_frames: u32,
}

#[repr(C)]
pub struct Rows {
    pub samples: *const u8,
    pub length: usize,
    pub stride: usize,
    pub columns: u32,
    pub rows: u32,
}

impl Rows {
    pub fn none() -> Rows {
        Rows {
            samples: std::ptr::null(),
            length: 0,
            stride: 0,
            columns: 0,
            rows: 0,
        }
    }
}

extern "C" {
    pub fn avcdec_open(decoder: *mut Decoder, early: bool) -> u32;
    pub fn avcdec_close(decoder: *mut Decoder);
    pub fn avcdec_feed(decoder: *mut Decoder, bytes: *const u8, length: usize) -> u32;
    pub fn avcdec_feed_unit(
        decoder: *mut Decoder,
        bytes: *const u8,
        length: usize,
        used: *mut usize,
    ) -> u32;
    pub fn avcdec_mark(decoder: *mut Decoder, value: u64) -> u32;
    pub fn avcdec_flush(decoder: *mut Decoder) -> u32;
    pub fn avcdec_reset(decoder: *mut Decoder) -> u32;
    pub fn avcdec_take(decoder: *mut Decoder, event: *mut Event) -> u32;
    pub fn avcdec_take_dropped(decoder: *mut Decoder, value: *mut u64) -> u32;
    pub fn avcdec_picture_info(decoder: *mut Decoder, info: *mut Info) -> u32;
    pub fn avcdec_lend_plane(decoder: *mut Decoder, plane: u32, rows: *mut Rows) -> u32;
    pub fn avcdec_turns(decoder: *mut Decoder) -> u64;
    pub fn avcdec_fault_name(fault: u32, name: *mut c_char, length: usize) -> u32;
    pub fn avcdec_version() -> u32;
}
