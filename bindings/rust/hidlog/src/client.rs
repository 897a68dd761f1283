//! Implements calls of `navigator.credentials` with the C library, which checks the options, builds the CTAP2 request,
//! and converts the key's response to the credential's JSON.
use crate::standard::LONGEST_MESSAGE;
use crate::Error;
use hidlog_sys as sys;

/// Maximum length in bytes of a credential as JSON.
const CREDENTIAL_CAPACITY: usize = 16384;
/// An argument for an empty public suffix: a pointer that isn't null, passed with the length 0. The C library then
/// takes the last label of the origin's host as the public suffix.
const NO_SUFFIX: [u8; 1] = [0];

/// A method of `navigator.credentials`.
#[derive(Clone, Copy, PartialEq, Eq)]
pub(crate) enum Ceremony {
    Create,
    Get,
}

/// The parameters of one call of `navigator.credentials`: the method, the options as JSON, the mediation, the page's
/// origin, and the key's abilities (flags of `enum hidlog_client_ability`).
pub(crate) struct ClientCall<'a> {
    pub(crate) ceremony: Ceremony,
    pub(crate) options: &'a str,
    pub(crate) mediation: &'a str,
    pub(crate) origin: &'a str,
    pub(crate) abilities: u32,
}

impl ClientCall<'_> {
    fn ceremony_code(&self) -> u32 {
        match self.ceremony {
            Ceremony::Create => sys::HIDLOG_CLIENT_CREATE,
            Ceremony::Get => sys::HIDLOG_CLIENT_GET,
        }
    }

    /// Checks the page's options, and returns the CTAP2 request: the command byte, followed by CBOR. Also returns
    /// whether the user is verified, so that the flag UV must be set in the response.
    pub(crate) fn build_request(&self) -> Result<(Vec<u8>, bool), Error> {
        let mut report = sys::hidlog_client_report::default();
        let mut out = vec![0; LONGEST_MESSAGE];
        // SAFETY: each pointer is valid for the length after it, and `out` and `report` overlap no other argument.
        let length = unsafe {
            sys::hidlog_client_request(
                self.ceremony_code(),
                self.options.as_ptr(),
                self.options.len(),
                self.mediation.as_ptr(),
                self.mediation.len(),
                self.origin.as_ptr(),
                self.origin.len(),
                NO_SUFFIX.as_ptr(),
                0,
                self.abilities,
                &mut report,
                out.as_mut_ptr(),
                out.len(),
            )
        };
        let request = read_output(length, &report, out, "the CTAP2 request is longer than 7609 bytes")?;
        Ok((request, report.is_verified == 1))
    }

    /// Returns the credential as JSON, from the key's response: a status byte, followed by CBOR.
    pub(crate) fn build_credential(&self, response: &[u8]) -> Result<String, Error> {
        let mut report = sys::hidlog_client_report::default();
        let mut out = vec![0; CREDENTIAL_CAPACITY];
        // SAFETY: each pointer is valid for the length after it, and `out` and `report` overlap no other argument.
        let length = unsafe {
            sys::hidlog_client_response(
                self.ceremony_code(),
                self.options.as_ptr(),
                self.options.len(),
                self.mediation.as_ptr(),
                self.mediation.len(),
                self.origin.as_ptr(),
                self.origin.len(),
                NO_SUFFIX.as_ptr(),
                0,
                self.abilities,
                response.as_ptr(),
                response.len(),
                &mut report,
                out.as_mut_ptr(),
                out.len(),
            )
        };
        String::from_utf8(read_output(length, &report, out, "the credential's JSON is longer than 16384 bytes")?)
            .map_err(|_| Error::InvalidResponse)
    }
}

/// Returns the output of a C function that returned `length` and wrote to `report` and `out`. A negative `length` is an
/// error code; then `out` has the texts for the error message. `too_long` is the message if the output did not fit.
fn read_output(
    length: i64,
    report: &sys::hidlog_client_report,
    mut out: Vec<u8>,
    too_long: &'static str,
) -> Result<Vec<u8>, Error> {
    if let Ok(length) = usize::try_from(length) {
        out.truncate(length);
        return Ok(out);
    }
    let name = match length {
        -1 => "TypeError",
        -2 => "EncodingError",
        -3 => "RangeError",
        -4 => "NotSupportedError",
        -5 => "SecurityError",
        -6 => "NotAllowedError",
        -7 => "InvalidStateError",
        -8 => "SyntaxError",
        _ => return Err(Error::InvalidArgument(too_long)),
    };
    let (member, reason) = (report.member_len as usize, report.reason_len as usize);
    let text = |from: &[u8]| String::from_utf8_lossy(from).into_owned();
    let reason = text(&out[member..member + reason]);
    Err(Error::Dom(name, if member == 0 { reason } else { format!("{}: {reason}", text(&out[..member])) }))
}
