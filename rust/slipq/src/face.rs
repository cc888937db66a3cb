//! The C face of libdock.a, as include/slipq.h declares it, and a safe function for each call.
//!
//! With a limit the second form of a call is taken.

/// A shape's four numbers: start, end, page, word. C has them as a struct, whose layout an array has too.
pub type Geometry = [u32; 4];

unsafe extern "C" {
    safe fn slipq_check(image_len: usize, geometry: &Geometry) -> u64;
    fn slipq_push(
        image: *mut u8,
        image_len: usize,
        geometry: *const Geometry,
        slip: *const u8,
        slip_len: usize,
        overwrite: u32,
    ) -> u64;
    fn slipq_push_limited(
        image: *mut u8,
        image_len: usize,
        geometry: *const Geometry,
        slip: *const u8,
        slip_len: usize,
        overwrite: u32,
        limit: usize,
    ) -> u64;
    fn slipq_peek(
        image: *mut u8,
        image_len: usize,
        geometry: *const Geometry,
        buffer: *mut u8,
        buffer_len: usize,
    ) -> u64;
    fn slipq_peek_limited(
        image: *mut u8,
        image_len: usize,
        geometry: *const Geometry,
        buffer: *mut u8,
        buffer_len: usize,
        limit: usize,
    ) -> u64;
    fn slipq_pop(
        image: *mut u8,
        image_len: usize,
        geometry: *const Geometry,
        buffer: *mut u8,
        buffer_len: usize,
    ) -> u64;
    fn slipq_pop_limited(
        image: *mut u8,
        image_len: usize,
        geometry: *const Geometry,
        buffer: *mut u8,
        buffer_len: usize,
        limit: usize,
    ) -> u64;
    fn slipq_find_max_fit(image: *mut u8, image_len: usize, geometry: *const Geometry) -> u64;
    fn slipq_find_max_fit_limited(
        image: *mut u8,
        image_len: usize,
        geometry: *const Geometry,
        limit: usize,
    ) -> u64;
    fn slipq_space_left(image: *mut u8, image_len: usize, geometry: *const Geometry) -> u64;
    fn slipq_space_left_limited(
        image: *mut u8,
        image_len: usize,
        geometry: *const Geometry,
        limit: usize,
    ) -> u64;
    fn slipq_erase_all(image: *mut u8, image_len: usize, geometry: *const Geometry) -> u64;
    fn slipq_erase_all_limited(
        image: *mut u8,
        image_len: usize,
        geometry: *const Geometry,
        limit: usize,
    ) -> u64;
    fn slipq_page_state(
        image: *const u8,
        image_len: usize,
        geometry: *const Geometry,
        p: u32,
    ) -> u64;
    fn slipq_item(
        image: *const u8,
        image_len: usize,
        geometry: *const Geometry,
        p: u32,
        address: u32,
    ) -> u64;
}

/// Document 01's row, and the value that comes with it. A look has one more: 255, there is no such page or address.
#[derive(Clone, Copy, Debug, PartialEq, Eq)]
pub struct Answer {
    pub row: u32,
    pub value: u32,
}

impl From<u64> for Answer {
    fn from(both: u64) -> Answer {
        Answer {
            // bits 8 to 31 are kept for later versions
            row: (both & 0xff) as u32,
            value: (both >> 32) as u32,
        }
    }
}

/// The value of a `find_max_fit` that found no fit.
pub const NO_FIT: u32 = u32::MAX;

// Where the functions below call C: a slice is valid for its length and its pointer is never null, and two slices of which one may be
// changed never overlap. The functions of libdock.a ask no more.

pub fn check(image_len: usize, geometry: Geometry) -> Answer {
    slipq_check(image_len, &geometry).into()
}

pub fn push(
    image: &mut [u8],
    geometry: Geometry,
    slip: &[u8],
    overwrite: bool,
    limit: Option<usize>,
) -> Answer {
    let (image, image_len) = (image.as_mut_ptr(), image.len());
    let (slip, slip_len) = (slip.as_ptr(), slip.len());
    let overwrite = overwrite.into();
    // SAFETY: as said above
    let both = unsafe {
        match limit {
            None => slipq_push(image, image_len, &geometry, slip, slip_len, overwrite),
            Some(limit) => slipq_push_limited(
                image, image_len, &geometry, slip, slip_len, overwrite, limit,
            ),
        }
    };
    both.into()
}

pub fn peek(
    image: &mut [u8],
    geometry: Geometry,
    buffer: &mut [u8],
    limit: Option<usize>,
) -> Answer {
    let (image, image_len) = (image.as_mut_ptr(), image.len());
    let (buffer, buffer_len) = (buffer.as_mut_ptr(), buffer.len());
    // SAFETY: as said above
    let both = unsafe {
        match limit {
            None => slipq_peek(image, image_len, &geometry, buffer, buffer_len),
            Some(limit) => {
                slipq_peek_limited(image, image_len, &geometry, buffer, buffer_len, limit)
            }
        }
    };
    both.into()
}

pub fn pop(
    image: &mut [u8],
    geometry: Geometry,
    buffer: &mut [u8],
    limit: Option<usize>,
) -> Answer {
    let (image, image_len) = (image.as_mut_ptr(), image.len());
    let (buffer, buffer_len) = (buffer.as_mut_ptr(), buffer.len());
    // SAFETY: as said above
    let both = unsafe {
        match limit {
            None => slipq_pop(image, image_len, &geometry, buffer, buffer_len),
            Some(limit) => {
                slipq_pop_limited(image, image_len, &geometry, buffer, buffer_len, limit)
            }
        }
    };
    both.into()
}

pub fn find_max_fit(image: &mut [u8], geometry: Geometry, limit: Option<usize>) -> Answer {
    let (image, image_len) = (image.as_mut_ptr(), image.len());
    // SAFETY: as said above
    let both = unsafe {
        match limit {
            None => slipq_find_max_fit(image, image_len, &geometry),
            Some(limit) => slipq_find_max_fit_limited(image, image_len, &geometry, limit),
        }
    };
    both.into()
}

pub fn space_left(image: &mut [u8], geometry: Geometry, limit: Option<usize>) -> Answer {
    let (image, image_len) = (image.as_mut_ptr(), image.len());
    // SAFETY: as said above
    let both = unsafe {
        match limit {
            None => slipq_space_left(image, image_len, &geometry),
            Some(limit) => slipq_space_left_limited(image, image_len, &geometry, limit),
        }
    };
    both.into()
}

pub fn erase_all(image: &mut [u8], geometry: Geometry, limit: Option<usize>) -> Answer {
    let (image, image_len) = (image.as_mut_ptr(), image.len());
    // SAFETY: as said above
    let both = unsafe {
        match limit {
            None => slipq_erase_all(image, image_len, &geometry),
            Some(limit) => slipq_erase_all_limited(image, image_len, &geometry, limit),
        }
    };
    both.into()
}

pub fn page_state(image: &[u8], geometry: Geometry, p: u32) -> Answer {
    // SAFETY: as said above
    unsafe { slipq_page_state(image.as_ptr(), image.len(), &geometry, p) }.into()
}

pub fn item(image: &[u8], geometry: Geometry, p: u32, address: u32) -> Answer {
    // SAFETY: as said above
    unsafe { slipq_item(image.as_ptr(), image.len(), &geometry, p, address) }.into()
}
