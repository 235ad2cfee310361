// The functions of okv.h for Rust, to be taken into a module by `include!`. The linker finds libokv.a by `-L`. What each
// promises stands in okv.h; other than the Rust's own, `AcquireLease` and `RenewLease` refuse a lease that names a reserved
// key with 10, and the ids of `LeasesExpired` stand by deadline, then epoch, then id.
#[link(name = "okv", kind = "static")]
#[allow(dead_code)]
extern "C" {
    pub fn okv_default(image: *mut u8, image_room: usize, length: *mut usize) -> u32;
    pub fn okv_test(image: *const u8, image_size: usize) -> u32;
    pub fn okv_apply(
        image: *const u8,
        image_size: usize,
        request: *const u8,
        request_size: usize,
        next: *mut u8,
        next_room: usize,
        outcome: *mut u8,
        outcome_room: usize,
        image_length: *mut usize,
        outcome_length: *mut usize,
    ) -> u32;
    pub fn okv_validate(image: *const u8, image_size: usize, token: *const u8, token_size: usize) -> u32;
}
