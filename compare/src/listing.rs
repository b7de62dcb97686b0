//! The bench listing, by the proved crate `listing`.

use crate::proved::proved;

proved! {
    fn compared_listing(schedule: &[u8], out: &mut [u8]) -> usize;
}

/// An output area of this length holds every listing.
pub const ENOUGH: usize = 2_799_452;

/// Writes the listing to the front of the area and gives its length, or 0 where the area is refused.
pub fn list_into(schedule: &[u8], area: &mut [u8]) -> usize {
    compared_listing(schedule, area)
}

/// The listing of a schedule, to the byte.
pub fn listing(schedule: &[u8]) -> Vec<u8> {
    let mut area = vec![0xEE; ENOUGH];
    let length = list_into(schedule, &mut area);
    assert!(area[length..].iter().all(|&byte| byte == 0xEE), "written behind the listing");
    area.truncate(length);
    area
}
