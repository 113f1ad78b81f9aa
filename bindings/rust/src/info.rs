use crate::c;

/// What is known of a picture beside its samples. The fields from `sar_width` on are the stream's VUI parameters (E.2.1), with the values
/// that the standard infers where they are not given.
#[derive(Clone, Copy, Debug, PartialEq, Eq, Hash)]
#[non_exhaustive]
pub struct PictureInfo {
    /// The NAL unit that brought its first slice, counted from 0 since the last reset.
    pub unit: u64,
    /// Whether it is an IDR picture: nothing before it is needed to decode what follows it.
    pub is_idr: bool,
    /// frame_num of its slices (7.4.3).
    pub frame_num: u32,
    /// PicOrderCnt (8.2.1): pictures from one IDR picture to the next go out in its order.
    pub pic_order_cnt: i32,
    /// The shape of a luma sample, of which only the ratio to `sar_height` matters. Both are 0 where it is not given.
    pub sar_width: u32,
    /// See `sar_width`.
    pub sar_height: u32,
    /// Whether samples take all values from 0 to 255.
    pub video_full_range_flag: bool,
    /// Table E-3; 2 where it is not given.
    pub colour_primaries: u32,
    /// Table E-4; 2 where it is not given.
    pub transfer_characteristics: u32,
    /// Table E-5; 2 where it is not given.
    pub matrix_coefficients: u32,
    /// Figure E-1.
    pub chroma_sample_loc_type: u32,
    /// There are time_scale / (2 * num_units_in_tick) frames in a second. Both are 0 where they are not given.
    pub num_units_in_tick: u32,
    /// See `num_units_in_tick`.
    pub time_scale: u32,
    /// Behind how many frames, at most, one goes out that came before them; nothing where it is not given.
    pub max_num_reorder_frames: Option<u32>,
}

impl PictureInfo {
    pub(crate) const NOTHING: PictureInfo = PictureInfo {
        unit: 0,
        is_idr: false,
        frame_num: 0,
        pic_order_cnt: 0,
        sar_width: 0,
        sar_height: 0,
        video_full_range_flag: false,
        colour_primaries: 0,
        transfer_characteristics: 0,
        matrix_coefficients: 0,
        chroma_sample_loc_type: 0,
        num_units_in_tick: 0,
        time_scale: 0,
        max_num_reorder_frames: None,
    };

    pub(crate) fn of(told: &c::Info) -> PictureInfo {
        PictureInfo {
            unit: told.unit,
            is_idr: told.is_idr != 0,
            frame_num: told.frame_num,
            pic_order_cnt: told.pic_order_cnt,
            sar_width: told.sar_width,
            sar_height: told.sar_height,
            video_full_range_flag: told.video_full_range_flag != 0,
            colour_primaries: told.colour_primaries,
            transfer_characteristics: told.transfer_characteristics,
            matrix_coefficients: told.matrix_coefficients,
            chroma_sample_loc_type: told.chroma_sample_loc_type,
            num_units_in_tick: told.num_units_in_tick,
            time_scale: told.time_scale,
            max_num_reorder_frames: (told.has_max_num_reorder_frames != 0)
                .then_some(told.max_num_reorder_frames),
        }
    }
}
