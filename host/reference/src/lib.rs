//! The model's listing as a function for C, with the signature of `rev_listing`, for `bench/run` to time it beside the
//! others in one process.

// What only the program uses (the generator, the counts of rows) is not called from here.
#![allow(dead_code)]

mod listing;
mod model;

/// The number given back where the file, or its listing, is too long. No listing is so short.
const TOO_LONG: usize = 8;

/// Gives the listing's length, and bytes of `out` past it stay as they were; or 8, and all of them do.
///
/// # Safety
/// `file` and `out` are not null, also at length 0, point to as many bytes as their lengths say, and do not overlap.
#[no_mangle]
pub unsafe extern "C" fn reference_listing(file: *const u8, file_len: usize, out: *mut u8, out_len: usize) -> usize {
    let file = std::slice::from_raw_parts(file, file_len);
    let out = std::slice::from_raw_parts_mut(out, out_len);
    match listing::listing(file, out.len()) {
        Some(listing) => {
            out[..listing.text.len()].copy_from_slice(&listing.text);
            listing.text.len()
        }
        None => TOO_LONG,
    }
}
