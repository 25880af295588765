//! The proved library as one function from a sheet's bytes to its text. Its name and its C signature
//! stand here and nowhere else: a slice goes as a pointer and a length.

/// With the hash of what is linked, as `sha256sum` prints it.
pub const NAME: &str = concat!("libsheet_ffi.a, ", env!("SHEET_FFI_SHA256"));

#[link(name = "sheet_ffi", kind = "static")]
extern "C" {
    /// Writes the text of a sheet and returns its length.
    fn sheet_ffi_run(sheet: *const u8, sheet_len: usize, text: *mut u8, text_len: usize) -> usize;
}

/// The room that the library asks for, its `TEXT_BYTES`; with less it writes nothing.
const TEXT: usize = 696_480;

pub fn run(sheet: &[u8]) -> Vec<u8> {
    let mut text = vec![0; TEXT];
    // SAFETY: both pointers are valid for the lengths beside them, and the two do not overlap.
    let length =
        unsafe { sheet_ffi_run(sheet.as_ptr(), sheet.len(), text.as_mut_ptr(), text.len()) };
    assert!(
        length <= TEXT,
        "a text of {length} bytes does not fit {TEXT}"
    );
    text.truncate(length);
    text
}
