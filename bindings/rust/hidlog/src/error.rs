//! The crate's error type.
use crate::standard::status_name;
use std::fmt;

/// An error of this crate.
#[derive(Clone, Debug, PartialEq, Eq)]
#[non_exhaustive]
pub enum Error {
    /// An error of the C library's key functions: the code (`enum hidlog_key_error` in `hidlog.h`) and its description.
    Core(i32, &'static str),
    /// An argument is invalid. The text says what it must be.
    InvalidArgument(&'static str),
    /// The CTAP status code with which the key rejected a request.
    Status(u8),
    /// An exception that `navigator.credentials` would throw in a page: its name, such as `NotAllowedError`, and its
    /// message.
    Dom(&'static str, String),
    /// The key responded with an ERROR packet, or its response is not valid CTAP 2.1.
    InvalidResponse,
    /// A function of OpenSSL failed: it could not generate a private key or random bytes, or could not sign.
    OpenSsl,
}

impl Error {
    /// Returns the name of the exception if this is an [`Error::Dom`], or `None` for another error.
    pub fn dom_name(&self) -> Option<&'static str> {
        match self {
            Error::Dom(name, _) => Some(name),
            _ => None,
        }
    }

    pub(crate) fn from_code(number: i32) -> Error {
        Error::Core(
            number,
            match number {
                -1 => "the key is not initialized",
                -3 => "packets are queued: read them first",
                -5 => "no credential has this ID",
                -7 => "a request is in progress: provide what it needs first",
                -8 => "another discoverable credential has the same RP and user",
                -17 => "the bytes are not a snapshot",
                -18 => "the key is full: its capacity is 64 credentials",
                -19 => "the snapshot has an invalid credential",
                _ => "the C library returned an unknown error code",
            },
        )
    }
}

impl fmt::Display for Error {
    fn fmt(&self, to: &mut fmt::Formatter<'_>) -> fmt::Result {
        match self {
            Error::Core(number, text) => write!(to, "hidlog: {text} ({number})"),
            Error::InvalidArgument(text) => write!(to, "hidlog: {text}"),
            Error::Status(status) => match status_name(*status) {
                Some(name) => write!(to, "hidlog: the key returned status {status:02x} {name}"),
                None => write!(to, "hidlog: the key returned status {status:02x}"),
            },
            Error::Dom(name, text) => write!(to, "{name}: {text}"),
            Error::InvalidResponse => write!(to, "hidlog: invalid response from the key"),
            Error::OpenSsl => write!(to, "hidlog: OpenSSL could not generate a key or random bytes, or could not sign"),
        }
    }
}

impl std::error::Error for Error {}
