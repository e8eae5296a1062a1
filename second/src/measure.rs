//! Measures: the unit is 1/7200 inch, the page is W dots by H dots.

/// A dot, at 300 to the inch.
pub const DOT: i64 = 24;
/// A decipoint, 1/720 inch.
pub const DECIPOINT: i64 = 10;
/// 1/120 inch, the unit of `&k#H`.
pub const HMI_STEP: i64 = 60;
/// 1/48 inch, the unit of `&l#C`.
pub const VMI_STEP: i64 = 150;
/// An inch.
pub const INCH: i64 = 7_200;
/// Dots to the inch on the page.
pub const DOTS_PER_INCH: usize = 300;

pub const WIDEST: u64 = 4_800;
pub const HIGHEST: u64 = 6_800;
/// Bytes of the widest row, and so the room of a seed row.
pub const WIDEST_ROW: usize = 600;
/// The position stack holds 20.
pub const STACK_ROOM: usize = 20;
/// A stream, and a translation, is at most this many bytes.
pub const LONGEST_STREAM: usize = 1_048_576;
/// Pages higher than this have a top margin of half an inch.
pub const TOP_MARGIN_ABOVE: u32 = 150;

/// A page measure that is allowed: there is no other way to make one.
#[derive(Clone, Copy, PartialEq, Eq, Debug)]
pub struct Measure {
    width: u32,
    height: u32,
}

impl Measure {
    /// "W is a multiple of 8 from 8 to 4,800, H is 1 to 6,800."
    pub fn allowed(width: u64, height: u64) -> Option<Measure> {
        let width_good = (8..=WIDEST).contains(&width) && width % 8 == 0;
        let height_good = (1..=HIGHEST).contains(&height);
        if !(width_good && height_good) {
            return None;
        }
        Some(Measure {
            width: u32::try_from(width).ok()?,
            height: u32::try_from(height).ok()?,
        })
    }

    /// The page of the report program, 640 by 800.
    pub fn of_the_report() -> Measure {
        Measure {
            width: 640,
            height: 800,
        }
    }

    /// W, in dots.
    pub fn width(&self) -> u32 {
        self.width
    }

    /// H, in dots.
    pub fn height(&self) -> u32 {
        self.height
    }

    /// LW = 24 W.
    pub fn logical_width(&self) -> u32 {
        self.width * 24
    }

    /// LH = 24 H.
    pub fn logical_height(&self) -> u32 {
        self.height * 24
    }

    /// W/8, the bytes of one row of the page, and of one raster row.
    pub fn row_bytes(&self) -> usize {
        (self.width / 8) as usize
    }

    /// W/8 x H. Bytes of a lent buffer after these are never touched.
    pub fn page_bytes(&self) -> usize {
        self.row_bytes() * self.height as usize
    }

    /// "x [is] always brought into 0..LW."
    pub fn bring_x(&self, x: i64) -> u32 {
        bring(x, self.logical_width())
    }

    /// "y [is] always brought into 0..LH."
    pub fn bring_y(&self, y: i64) -> u32 {
        bring(y, self.logical_height())
    }
}

fn bring(position: i64, end: u32) -> u32 {
    // Both ends belong to the range, and the answer fits: end is a u32.
    u32::try_from(position.clamp(0, i64::from(end))).unwrap_or(end)
}
