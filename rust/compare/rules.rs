//! Document 01's rules for looking at a page, written anew: the crate has no call that could be asked.
use judge::slip::{data_crc, length_crc};
use judge::{Shape, refusal};

/// Row and value.
pub type Numbers = (u32, u32);

/// What answers for a page that is not there, and for an address outside a page's data: include/slipq.h's number, no row of document 01.
const NOT_THERE: Numbers = (255, 0);

/// The state of page p: 0 open, 1 partial, 2 closed, 3 corrupted.
pub fn page_state(image: &[u8], shape: &Shape, p: u32) -> Numbers {
    match page(image, shape, p) {
        Err(numbers) => numbers,
        Ok((_, bytes)) => {
            let word = shape.word as usize;
            let is_set = |mark: &[u8]| mark.iter().map(|byte| byte.count_zeros()).sum::<u32>() >= 4;
            let first = is_set(&bytes[..word]);
            let last = is_set(&bytes[bytes.len() - word..]);
            let state = match (first, last) {
                (false, false) => 0,
                (true, false) => 1,
                (true, true) => 2,
                (false, true) => 3,
            };
            (0, state)
        }
    }
}

/// What the scan of page p sees at an address: kind + 8 * length. Kind 0 nothing more, 1 no header, 2 waits, 3 popped, 4 torn.
pub fn item(image: &[u8], shape: &Shape, p: u32, address: u32) -> Numbers {
    let (start, bytes) = match page(image, shape, p) {
        Err(numbers) => return numbers,
        Ok(page) => page,
    };
    let word = shape.word as usize;
    let data_end = bytes.len() - word;
    let at = match address.checked_sub(start) {
        // the end of the data too: a scan that comes to it sees nothing more
        Some(at) if (word..=data_end).contains(&(at as usize)) => at as usize,
        _ => return NOT_THERE,
    };
    let rest = &bytes[at..data_end];
    let header_size = 8_usize.next_multiple_of(word);
    let Some((header, payload)) = rest.split_at_checked(header_size) else {
        return (0, 0);
    };
    if header.iter().all(|byte| *byte == 0xff) {
        return (0, 0);
    }
    let crc = u32::from_le_bytes([header[0], header[1], header[2], header[3]]);
    let length = u16::from_le_bytes([header[4], header[5]]);
    let is_right = u16::from_le_bytes([header[6], header[7]]) == length_crc(length);
    let rounded = usize::from(length).next_multiple_of(word);
    if !is_right || rounded > payload.len() {
        return (0, 1);
    }
    let kind = match crc {
        0 => 3,
        crc if crc == data_crc(&payload[..length.into()]) => 2,
        _ => 4,
    };
    (0, kind + 8 * u32::from(length))
}

/// A page's first address and its bytes, or why there is none.
fn page<'a>(image: &'a [u8], shape: &Shape, p: u32) -> Result<(u32, &'a [u8]), Numbers> {
    if let Some(row) = refusal(shape, image.len()) {
        return Err((row, 0));
    }
    if p >= (shape.end - shape.start) / shape.page {
        return Err(NOT_THERE);
    }
    let start = shape.start + p * shape.page;
    Ok((start, &image[start as usize..][..shape.page as usize]))
}
