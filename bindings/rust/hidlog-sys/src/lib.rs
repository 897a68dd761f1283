//! Declarations of the C library's functions and types, which `hidlog.h` documents (in the folder `lib` of the
//! published crate). The crate `hidlog` has safe functions that call them.
#![no_std]
#![allow(non_camel_case_types)]
#![allow(clippy::missing_safety_doc)]

use core::ffi::c_void;

/// The status of a command that completed (`enum hidlog_status`).
pub const HIDLOG_OK: u32 = 0;
/// Maximum length in bytes of a snapshot of 64 credentials.
pub const HIDLOG_SNAPSHOT_MAX_LEN: usize = 18125;
/// What a key needs from its caller: the values of `enum hidlog_need_kind`.
pub const HIDLOG_NEED_NONE: u32 = 0;
pub const HIDLOG_NEED_PRESENCE: u32 = 1;
pub const HIDLOG_NEED_KEY_PAIR: u32 = 2;
pub const HIDLOG_NEED_SIGNATURE: u32 = 3;

/// An in-memory key: `struct hidlog_key`.
#[repr(C)]
pub struct hidlog_key {
    pub memory: *mut c_void,
    pub state: u32,
}

/// The result of a command: `struct hidlog_result`.
#[repr(C)]
#[derive(Clone, Copy, Debug, Default)]
pub struct hidlog_result {
    pub status: u32,
    pub error: u32,
    pub line: u64,
    pub packet: u64,
    pub written: u64,
}

/// What a key needs from its caller: `struct hidlog_need`.
#[repr(C)]
#[derive(Clone, Copy)]
pub struct hidlog_need {
    pub kind: u32,
    pub to_sign_len: u32,
    pub id: [u8; 32],
    pub to_sign: [u8; 196],
}

/// Why a key rejected its last input: `struct hidlog_cause`.
#[repr(C)]
#[derive(Clone, Copy, Debug, Default, PartialEq, Eq)]
pub struct hidlog_cause {
    pub code: u32,
    pub status: u32,
    pub first: u64,
    pub second: u64,
}

/// A credential without its private key: `struct hidlog_credential`.
#[repr(C)]
#[derive(Clone, Copy)]
pub struct hidlog_credential {
    pub rp_id_hash: [u8; 32],
    pub id: [u8; 32],
    pub x: [u8; 32],
    pub y: [u8; 32],
    pub user_id: [u8; 64],
    pub user_name: [u8; 64],
    pub user_id_len: u32,
    pub user_name_len: u32,
    pub discoverable: u32,
    pub sign_count: u32,
}

/// Totals and peaks of a key's session: `struct hidlog_stats`.
#[repr(C)]
#[derive(Clone, Copy, Debug, Default, PartialEq, Eq)]
pub struct hidlog_stats {
    pub requests: u64,
    pub bytes: u64,
    pub steps: u64,
    pub peak_message_bytes: u32,
    pub peak_credentials: u32,
    pub peak_pending: u32,
    pub reserved: u32,
}

/// The methods of navigator.credentials: the values of `enum hidlog_client_ceremony`.
pub const HIDLOG_CLIENT_CREATE: u32 = 0;
pub const HIDLOG_CLIENT_GET: u32 = 1;
/// What a key and its caller support: the flags of `enum hidlog_client_ability`.
pub const HIDLOG_CLIENT_VERIFIES: u32 = 1;
pub const HIDLOG_CLIENT_VERIFICATION_FAILS: u32 = 2;
pub const HIDLOG_CLIENT_PLATFORM: u32 = 4;
pub const HIDLOG_CLIENT_RESIDENT_KEY: u32 = 8;
pub const HIDLOG_CLIENT_CRED_PROTECT: u32 = 16;
pub const HIDLOG_CLIENT_LARGE_BLOB: u32 = 32;

/// What the client functions report besides their output: `struct hidlog_client_report`.
#[repr(C)]
#[derive(Clone, Copy, Debug, Default, PartialEq, Eq)]
pub struct hidlog_client_report {
    pub timeout_ms: u32,
    pub is_verified: u32,
    pub member_len: u32,
    pub reason_len: u32,
}

macro_rules! commands {
    ($($name:ident)*) => { extern "C" { $(
        pub fn $name(log: *const u8, log_len: usize, snapshot: *const u8, snapshot_len: usize, out: *mut u8,
            out_cap: usize, result: *mut hidlog_result);
    )* } };
}

commands! { hidlog_replay hidlog_live hidlog_check hidlog_quiet }

extern "C" {
    pub fn hidlog_show(
        log: *const u8,
        log_len: usize,
        explain: u32,
        out: *mut u8,
        out_cap: usize,
        result: *mut hidlog_result,
    );
    pub fn hidlog_transactions(
        log: *const u8,
        log_len: usize,
        out: *mut u8,
        out_cap: usize,
        result: *mut hidlog_result,
    );
    pub fn hidlog_result_message(result: *const hidlog_result, out: *mut u8, out_cap: usize) -> usize;
    pub fn hidlog_key_size() -> usize;
    pub fn hidlog_key_init(
        key: *mut hidlog_key,
        aaguid: *const u8,
        now_ms: u64,
        snapshot: *const u8,
        snapshot_len: usize,
    ) -> i32;
    pub fn hidlog_key_destroy(key: *mut hidlog_key) -> i32;
    pub fn hidlog_key_write_packet(key: *mut hidlog_key, now_ms: u64, packet: *const u8) -> i32;
    pub fn hidlog_key_tick(key: *mut hidlog_key, now_ms: u64) -> i32;
    pub fn hidlog_key_provide_presence(key: *mut hidlog_key, now_ms: u64, presence: u32) -> i32;
    pub fn hidlog_key_provide_key_pair(
        key: *mut hidlog_key,
        now_ms: u64,
        id: *const u8,
        x: *const u8,
        y: *const u8,
    ) -> i32;
    pub fn hidlog_key_refuse_key_pair(key: *mut hidlog_key, now_ms: u64) -> i32;
    pub fn hidlog_key_provide_signature(
        key: *mut hidlog_key,
        now_ms: u64,
        signature: *const u8,
        signature_len: usize,
    ) -> i32;
    pub fn hidlog_key_refuse_signature(key: *mut hidlog_key, now_ms: u64) -> i32;
    pub fn hidlog_key_queued_packets(key: *mut hidlog_key) -> i32;
    pub fn hidlog_key_read_packet(key: *mut hidlog_key, packet: *mut u8) -> i32;
    pub fn hidlog_key_get_need(key: *mut hidlog_key, need: *mut hidlog_need) -> i32;
    pub fn hidlog_key_credential_count(key: *mut hidlog_key) -> i32;
    pub fn hidlog_key_get_credential(key: *mut hidlog_key, index: usize, credential: *mut hidlog_credential) -> i32;
    pub fn hidlog_key_add_credential(key: *mut hidlog_key, now_ms: u64, credential: *const hidlog_credential) -> i32;
    pub fn hidlog_key_remove_credential(key: *mut hidlog_key, now_ms: u64, id: *const u8) -> i32;
    pub fn hidlog_key_clear_credentials(key: *mut hidlog_key, now_ms: u64) -> i32;
    pub fn hidlog_key_save_snapshot(key: *mut hidlog_key, out: *mut u8, out_cap: usize) -> i32;
    pub fn hidlog_key_pending_assertions(key: *mut hidlog_key) -> i32;
    pub fn hidlog_key_cause(
        key: *mut hidlog_key,
        which: u32,
        cause: *mut hidlog_cause,
        out: *mut u8,
        out_cap: usize,
    ) -> i32;
    pub fn hidlog_key_get_stats(key: *mut hidlog_key, stats: *mut hidlog_stats) -> i32;
    pub fn hidlog_key_replay_lines(
        key: *mut hidlog_key,
        log: *const u8,
        log_len: usize,
        out: *mut u8,
        out_cap: usize,
        result: *mut hidlog_result,
    ) -> i32;
    pub fn hidlog_client_request(
        ceremony: u32,
        options: *const u8,
        options_len: usize,
        mediation: *const u8,
        mediation_len: usize,
        origin: *const u8,
        origin_len: usize,
        suffix: *const u8,
        suffix_len: usize,
        abilities: u32,
        report: *mut hidlog_client_report,
        out: *mut u8,
        out_cap: usize,
    ) -> i64;
    pub fn hidlog_client_response(
        ceremony: u32,
        options: *const u8,
        options_len: usize,
        mediation: *const u8,
        mediation_len: usize,
        origin: *const u8,
        origin_len: usize,
        suffix: *const u8,
        suffix_len: usize,
        abilities: u32,
        response: *const u8,
        response_len: usize,
        report: *mut hidlog_client_report,
        out: *mut u8,
        out_cap: usize,
    ) -> i64;
}
