//! A formally verified FIDO2 security key for tests, with recorded sessions that replay exactly.
//!
//! A [`Browser`] registers credentials and signs in with them, as `navigator.credentials` does in a page:
//!
//! ```
//! # #[cfg(feature = "openssl")]
//! # fn main() -> Result<(), Box<dyn std::error::Error>> {
//! use hidlog::{Browser, CreationOptions, Presence, RequestOptions, SecurityKey};
//!
//! let mut browser = Browser::new("https://example.com", SecurityKey::new()?);
//! let registration = browser.create(&CreationOptions::new(b"challenge", b"ann", "Ann"))?;
//! println!("send it to your service: {}", registration.to_json());
//! let assertion = browser.get(&RequestOptions::new(b"another challenge"))?;
//! assert_eq!(assertion.id, registration.id);
//!
//! browser.key.presence = vec![Presence::Denied]; // from now on the user refuses
//! assert_eq!(browser.get(&RequestOptions::new(b"a third")).unwrap_err().dom_name(), Some("NotAllowedError"));
//! # Ok(())
//! # }
//! # #[cfg(not(feature = "openssl"))]
//! # fn main() {}
//! ```
//!
//! An [`Authenticator`] is the verified core without private keys and without a simulated user: its caller passes in
//! the host's packets, user presence, key pairs and signatures, and gets packets for the host. `hidlog check` checks
//! its recordings. Private keys are stored in clear text: use this crate for tests only.
#![warn(missing_docs)]

mod error;
mod key;
mod standard;

#[cfg(feature = "openssl")]
mod base64url;
#[cfg(feature = "openssl")]
mod browser;
#[cfg(feature = "openssl")]
mod cbor;
#[cfg(feature = "openssl")]
mod client;
#[cfg(feature = "openssl")]
mod options;
#[cfg(feature = "openssl")]
mod private_keys;
#[cfg(feature = "openssl")]
mod security_key;

pub use error::Error;
pub use key::{Authenticator, Credential, Id, Need, Packet, Presence, Recording};

#[cfg(feature = "openssl")]
pub use browser::{AuthenticationResponse, Browser, CreationOptions, RegistrationResponse, RequestOptions};
#[cfg(feature = "openssl")]
pub use options::{AuthenticatorOptions, Verification};
#[cfg(feature = "openssl")]
pub use private_keys::{sha256, PrivateKey};
#[cfg(feature = "openssl")]
pub use security_key::{Faults, SecurityKey};
