//! The functions of the static library, as crates/capi/morvuges.h declares them.

mod raw {
    extern "C" {
        pub fn morvuges_sheet(
            text: *const u8,
            text_len: usize,
            width: usize,
            calls: *const u8,
            calls_len: usize,
            out: *mut u8,
            out_len: usize,
        ) -> i64;
        pub fn morvuges_refine_often(text: *const u8, text_len: usize, width: usize, times: usize) -> i64;
        pub fn morvuges_settled_often(text: *const u8, text_len: usize, width: usize, times: usize) -> i64;
        pub fn morvuges_musts_often(text: *const u8, text_len: usize, width: usize, times: usize) -> i64;
    }
}

pub fn sheet(text: &[u8], width: usize, calls: &[u8], out: &mut [u8]) -> i64 {
    // SAFETY: each pointer is that of a slice with its length, and the library asks nothing more.
    unsafe {
        raw::morvuges_sheet(text.as_ptr(), text.len(), width, calls.as_ptr(), calls.len(), out.as_mut_ptr(), out.len())
    }
}

pub fn refine_often(text: &[u8], width: usize, times: usize) -> i64 {
    // SAFETY: as above.
    unsafe { raw::morvuges_refine_often(text.as_ptr(), text.len(), width, times) }
}

pub fn settled_often(text: &[u8], width: usize, times: usize) -> i64 {
    // SAFETY: as above.
    unsafe { raw::morvuges_settled_often(text.as_ptr(), text.len(), width, times) }
}

pub fn musts_often(text: &[u8], width: usize, times: usize) -> i64 {
    // SAFETY: as above.
    unsafe { raw::morvuges_musts_often(text.as_ptr(), text.len(), width, times) }
}
