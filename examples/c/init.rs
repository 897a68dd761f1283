//! Initializes a key with the C library, sends INIT on the broadcast channel (CTAP 2.1, section 11.2.9.1.3) and prints
//! the response. To compile it:
//!
//!     rustc --edition 2021 -C link-arg=release/libhidlog.a -o init examples/c/init.rs
use std::ffi::c_void;

/// 16 bytes of the key's memory, which must be aligned to 16 bytes.
#[repr(align(16))]
#[derive(Clone, Copy)]
struct AlignedBlock(#[allow(dead_code)] [u8; 16]);

/// `struct hidlog_key` of hidlog.h.
#[repr(C)]
struct Key {
    memory: *mut c_void,
    state: u32,
}

extern "C" {
    fn hidlog_key_size() -> usize;
    fn hidlog_key_init(key: *mut Key, aaguid: *const u8, now_ms: u64, snapshot: *const u8, snapshot_len: usize) -> i32;
    fn hidlog_key_write_packet(key: *mut Key, now_ms: u64, packet: *const u8) -> i32;
    fn hidlog_key_read_packet(key: *mut Key, packet: *mut u8) -> i32;
    fn hidlog_key_destroy(key: *mut Key) -> i32;
}

fn main() {
    // Neither the memory nor the key may move while the key is initialized.
    let mut memory = vec![AlignedBlock([0; 16]); (unsafe { hidlog_key_size() } + 15) / 16];
    let mut key = Box::new(Key { memory: memory.as_mut_ptr().cast(), state: 0 });
    let aaguid = [0u8; 16];
    let mut packet = [0u8; 64];
    packet[..15].copy_from_slice(&[0xff, 0xff, 0xff, 0xff, 0x86, 0, 8, 1, 2, 3, 4, 5, 6, 7, 8]);
    // SAFETY: no pointer is null, and the key is initialized before its use and destroyed before its memory is freed.
    unsafe {
        assert_eq!(hidlog_key_init(&mut *key, aaguid.as_ptr(), 0, aaguid.as_ptr(), 0), 0);
        assert_eq!(hidlog_key_write_packet(&mut *key, 0, packet.as_ptr()), 1);
        assert_eq!(hidlog_key_read_packet(&mut *key, packet.as_mut_ptr()), 0);
        assert_eq!(hidlog_key_destroy(&mut *key), 0);
    }
    println!("{}", packet.iter().map(|byte| format!("{byte:02x}")).collect::<String>());
}
