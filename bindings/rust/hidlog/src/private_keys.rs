//! Signing keys on P-256, SHA-256, and random bytes, from the system's OpenSSL 3.
use crate::Error;
use std::os::raw::{c_char, c_int, c_uchar, c_void};
use std::ptr::{null, null_mut};

extern "C" {
    fn EVP_PKEY_Q_keygen(libctx: *mut c_void, propq: *const c_char, kind: *const c_char, ...) -> *mut c_void;
    fn EVP_PKEY_get_octet_string_param(
        key: *const c_void,
        name: *const c_char,
        out: *mut c_uchar,
        capacity: usize,
        len: *mut usize,
    ) -> c_int;
    fn EVP_PKEY_free(key: *mut c_void);
    fn EVP_MD_CTX_new() -> *mut c_void;
    fn EVP_MD_CTX_free(context: *mut c_void);
    fn EVP_sha256() -> *const c_void;
    fn EVP_DigestSignInit(
        context: *mut c_void,
        key_context: *mut *mut c_void,
        kind: *const c_void,
        engine: *mut c_void,
        key: *mut c_void,
    ) -> c_int;
    fn EVP_DigestSign(context: *mut c_void, out: *mut u8, len: *mut usize, text: *const u8, text_len: usize) -> c_int;
    fn EVP_DigestVerifyInit(
        context: *mut c_void,
        key_context: *mut *mut c_void,
        kind: *const c_void,
        engine: *mut c_void,
        key: *mut c_void,
    ) -> c_int;
    fn EVP_DigestVerify(context: *mut c_void, out: *const u8, len: usize, text: *const u8, text_len: usize) -> c_int;
    fn SHA256(text: *const u8, len: usize, out: *mut u8) -> *mut u8;
    fn RAND_bytes(out: *mut u8, len: c_int) -> c_int;
}

/// Returns the SHA-256 hash of a text.
pub fn sha256(text: &[u8]) -> [u8; 32] {
    let mut out = [0; 32];
    // SAFETY: SHA256 reads `text.len()` bytes and writes 32.
    unsafe { SHA256(text.as_ptr(), text.len(), out.as_mut_ptr()) };
    out
}

/// Returns `N` random bytes.
pub(crate) fn random_bytes<const N: usize>() -> Result<[u8; N], Error> {
    let mut out = [0; N];
    // SAFETY: RAND_bytes writes N bytes.
    match unsafe { RAND_bytes(out.as_mut_ptr(), N as c_int) } {
        1 => Ok(out),
        _ => Err(Error::OpenSsl),
    }
}

/// A private key on P-256.
pub struct PrivateKey(*mut c_void);

// SAFETY: any thread may use a key of OpenSSL, and a `PrivateKey` is the only owner of its key.
unsafe impl Send for PrivateKey {}

impl PrivateKey {
    /// Generates a new private key.
    ///
    /// # Errors
    ///
    /// [`Error::OpenSsl`] if OpenSSL fails.
    pub fn new() -> Result<PrivateKey, Error> {
        // SAFETY: the strings end with NUL. For keys of the type "EC", OpenSSL expects one more argument, the curve's
        // name.
        let key = unsafe { EVP_PKEY_Q_keygen(null_mut(), null(), b"EC\0".as_ptr().cast(), b"P-256\0".as_ptr()) };
        if key.is_null() {
            return Err(Error::OpenSsl);
        }
        Ok(PrivateKey(key))
    }

    /// Returns the x and y coordinates of the public key.
    ///
    /// # Errors
    ///
    /// [`Error::OpenSsl`] if OpenSSL fails.
    pub fn point(&self) -> Result<([u8; 32], [u8; 32]), Error> {
        let (mut out, mut len) = ([0u8; 65], 0);
        // SAFETY: the key is not null, and `out` has `out.len()` bytes.
        let status = unsafe {
            let name = b"pub\0".as_ptr().cast();
            EVP_PKEY_get_octet_string_param(self.0, name, out.as_mut_ptr(), out.len(), &mut len)
        };
        // OpenSSL returns an uncompressed point: the byte 4, then the coordinates x and y.
        if status != 1 || len != 65 || out[0] != 4 {
            return Err(Error::OpenSsl);
        }
        let (x, y) = out[1..].split_at(32);
        Ok((x.try_into().expect("32 bytes"), y.try_into().expect("32 bytes")))
    }

    /// Returns the public key as a SubjectPublicKeyInfo, as WebAuthn's `getPublicKey()` does.
    ///
    /// # Errors
    ///
    /// [`Error::OpenSsl`] if OpenSSL fails.
    pub fn public_key(&self) -> Result<Vec<u8>, Error> {
        // The DER bytes before the coordinates (RFC 5480): the algorithm ecPublicKey, the curve prime256v1, the head of
        // a bit string, and the byte 4, with which an uncompressed point begins.
        const SPKI_PREFIX: [u8; 27] = [
            0x30, 0x59, 0x30, 0x13, 0x06, 0x07, 0x2a, 0x86, 0x48, 0xce, 0x3d, 0x02, 0x01, 0x06, 0x08, 0x2a, 0x86, 0x48,
            0xce, 0x3d, 0x03, 0x01, 0x07, 0x03, 0x42, 0x00, 0x04,
        ];
        let (x, y) = self.point()?;
        Ok([&SPKI_PREFIX[..], &x, &y].concat())
    }

    /// Signs a text with ECDSA and SHA-256, and returns the signature in DER.
    ///
    /// # Errors
    ///
    /// [`Error::OpenSsl`] if OpenSSL fails.
    pub fn sign(&self, text: &[u8]) -> Result<Vec<u8>, Error> {
        let (mut out, mut len) = (vec![0; 72], 72);
        // SAFETY: the key is not null. Each length is that of its buffer; 72 bytes are enough for a signature on P-256.
        let is_signed = unsafe {
            let context = EVP_MD_CTX_new();
            let is_initialized = EVP_DigestSignInit(context, null_mut(), EVP_sha256(), null_mut(), self.0) == 1;
            let is_signed =
                is_initialized && EVP_DigestSign(context, out.as_mut_ptr(), &mut len, text.as_ptr(), text.len()) == 1;
            EVP_MD_CTX_free(context);
            is_signed
        };
        out.truncate(len);
        is_signed.then_some(out).ok_or(Error::OpenSsl)
    }

    /// Returns whether a signature over a text is valid for this key.
    pub fn verify(&self, text: &[u8], signature: &[u8]) -> bool {
        // SAFETY: the key is not null, and each length is that of its buffer.
        unsafe {
            let context = EVP_MD_CTX_new();
            let is_initialized = EVP_DigestVerifyInit(context, null_mut(), EVP_sha256(), null_mut(), self.0) == 1;
            let (bytes, len) = (signature.as_ptr(), signature.len());
            let is_valid = is_initialized && EVP_DigestVerify(context, bytes, len, text.as_ptr(), text.len()) == 1;
            EVP_MD_CTX_free(context);
            is_valid
        }
    }
}

impl Drop for PrivateKey {
    fn drop(&mut self) {
        // SAFETY: `self` is the only owner of the key, and does not use it again.
        unsafe { EVP_PKEY_free(self.0) };
    }
}
