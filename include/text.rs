// The functions of text.h for Rust, to be taken into a module by `include!`. The linker finds libtext_c.a by `-L`. What each
// promises stands in text.h.
#[link(name = "text_c", kind = "static")]
#[allow(dead_code)]
extern "C" {
    pub fn text_is_utf8(text: *const u8, size: usize) -> bool;
    pub fn text_same(a: *const u8, a_size: usize, b: *const u8, b_size: usize) -> bool;
    pub fn text_starts_with(text: *const u8, size: usize, prefix: *const u8, prefix_size: usize) -> bool;
    pub fn text_ends_with_byte(text: *const u8, size: usize, byte: u8) -> bool;
    pub fn text_valid_sha256(text: *const u8, size: usize) -> bool;
    pub fn text_compare(a: *const u8, a_size: usize, b: *const u8, b_size: usize, steps: *mut usize) -> u8;
}
