//! A simulated browser that registers and signs in, with the types of its options and responses.
use crate::base64url;
use crate::cbor::Item;
use crate::client::{Ceremony, ClientCall};
use crate::options::{flag_names, FLAG_UV};
use crate::private_keys::{sha256, PrivateKey};
use crate::{Error, Id, SecurityKey};
use std::collections::HashMap;

/// Options for a registration: `PublicKeyCredentialCreationOptions`.
#[derive(Clone, Debug)]
pub struct CreationOptions {
    /// The RP ID [default: the origin's host].
    pub rp_id: Option<String>,
    /// The relying party's challenge.
    pub challenge: Vec<u8>,
    /// The user handle, 1 to 64 bytes.
    pub user_id: Vec<u8>,
    /// The user's name.
    pub user_name: String,
    /// Whether to require a discoverable credential (`residentKey`).
    pub discoverable: bool,
    /// IDs of credentials that must not be on the key (`excludeCredentials`).
    pub exclude: Vec<Id>,
}

impl CreationOptions {
    /// Returns options that require a discoverable credential. The RP ID is the origin's host.
    pub fn new(challenge: &[u8], user_id: &[u8], user_name: &str) -> CreationOptions {
        CreationOptions {
            rp_id: None,
            challenge: challenge.to_vec(),
            user_id: user_id.to_vec(),
            user_name: user_name.into(),
            discoverable: true,
            exclude: Vec::new(),
        }
    }
}

/// Options for a sign-in: `PublicKeyCredentialRequestOptions`.
#[derive(Clone, Debug)]
pub struct RequestOptions {
    /// The RP ID [default: the origin's host].
    pub rp_id: Option<String>,
    /// The relying party's challenge.
    pub challenge: Vec<u8>,
    /// IDs of the credentials that may sign in (`allowCredentials`). If empty, any discoverable credential may.
    pub allow: Vec<Id>,
    /// The account to sign in with if several match: 0 is the newest, 1 the next older, and so on.
    pub account: usize,
}

impl RequestOptions {
    /// Returns options that allow any discoverable credential. The RP ID is the origin's host.
    pub fn new(challenge: &[u8]) -> RequestOptions {
        RequestOptions { rp_id: None, challenge: challenge.to_vec(), allow: Vec::new(), account: 0 }
    }
}

/// The response to a registration.
#[derive(Clone, Debug, PartialEq, Eq)]
pub struct RegistrationResponse {
    /// The credential ID.
    pub id: Id,
    /// `clientDataJSON`.
    pub client_data: Vec<u8>,
    /// `attestationObject`.
    pub attestation_object: Vec<u8>,
    /// The result of `getAuthenticatorData()`.
    pub authenticator_data: Vec<u8>,
    /// The result of `getPublicKey()`: a SubjectPublicKeyInfo.
    pub public_key: Vec<u8>,
    json: String,
}

/// The response to a sign-in.
#[derive(Clone, Debug, PartialEq, Eq)]
pub struct AuthenticationResponse {
    /// The credential ID.
    pub id: Id,
    /// `clientDataJSON`.
    pub client_data: Vec<u8>,
    /// `authenticatorData`.
    pub authenticator_data: Vec<u8>,
    /// `signature` (DER).
    pub signature: Vec<u8>,
    /// `userHandle`.
    pub user_handle: Option<Vec<u8>>,
    json: String,
}

impl CreationOptions {
    /// Returns the options as `PublicKeyCredentialCreationOptionsJSON` (WebAuthn Level 3).
    fn to_json(&self) -> String {
        let rp_id = self.rp_id.as_ref().map(|id| format!(r#""id":{},"#, to_json_string(id))).unwrap_or_default();
        let name = to_json_string(&self.user_name);
        let (challenge, user_id) = (base64url::encode(&self.challenge), base64url::encode(&self.user_id));
        let resident_key = if self.discoverable { "required" } else { "discouraged" };
        format!(
            concat!(
                r#"{{"rp":{{{}"name":""}},"user":{{"id":"{}","name":{},"displayName":{}}},"challenge":"{}","#,
                r#""pubKeyCredParams":[{{"type":"public-key","alg":-7}}],"excludeCredentials":[{}],"#,
                r#""authenticatorSelection":{{"residentKey":"{}","userVerification":"discouraged"}}}}"#
            ),
            rp_id,
            user_id,
            name,
            name,
            challenge,
            to_json_descriptors(&self.exclude),
            resident_key
        )
    }
}

impl RequestOptions {
    /// Returns the options as `PublicKeyCredentialRequestOptionsJSON` (WebAuthn Level 3).
    fn to_json(&self) -> String {
        let rp_id = self.rp_id.as_ref().map(|id| format!(r#""rpId":{},"#, to_json_string(id))).unwrap_or_default();
        let (challenge, allow) = (base64url::encode(&self.challenge), to_json_descriptors(&self.allow));
        format!(r#"{{{rp_id}"challenge":"{challenge}","allowCredentials":[{allow}],"userVerification":"discouraged"}}"#)
    }
}

/// Returns a text as a JSON string in quotes, with special characters escaped.
fn to_json_string(text: &str) -> String {
    let mut found = String::from('"');
    for letter in text.chars() {
        match letter {
            '"' | '\\' => found.extend(['\\', letter]),
            control if control < ' ' => found.extend(format!("\\u{:04x}", control as u32).chars()),
            other => found.push(other),
        }
    }
    found.push('"');
    found
}

/// Returns a `PublicKeyCredentialDescriptor` for each credential ID, as the elements of a JSON array without its
/// brackets.
fn to_json_descriptors(ids: &[Id]) -> String {
    let each = |id: &Id| format!(r#"{{"type":"public-key","id":"{}"}}"#, base64url::encode(id));
    ids.iter().map(each).collect::<Vec<_>>().join(",")
}

impl RegistrationResponse {
    /// Returns the response as `RegistrationResponseJSON` (WebAuthn Level 3).
    pub fn to_json(&self) -> String {
        self.json.clone()
    }

    fn parse(json: String) -> Option<RegistrationResponse> {
        Some(RegistrationResponse {
            id: read_member(&json, "id")?.try_into().ok()?,
            client_data: read_member(&json, "clientDataJSON")?,
            attestation_object: read_member(&json, "attestationObject")?,
            authenticator_data: read_member(&json, "authenticatorData")?,
            public_key: read_member(&json, "publicKey").unwrap_or_default(),
            json,
        })
    }
}

impl AuthenticationResponse {
    /// Returns the response as `AuthenticationResponseJSON` (WebAuthn Level 3).
    pub fn to_json(&self) -> String {
        self.json.clone()
    }

    fn parse(json: String) -> Option<AuthenticationResponse> {
        Some(AuthenticationResponse {
            id: read_member(&json, "id")?.try_into().ok()?,
            client_data: read_member(&json, "clientDataJSON")?,
            authenticator_data: read_member(&json, "authenticatorData")?,
            signature: read_member(&json, "signature")?,
            user_handle: read_member(&json, "userHandle"),
            json,
        })
    }
}

/// Returns the decoded base64url value of the member with this name in a credential's JSON. Searching for `"name":"` is
/// enough to find it, since the C library writes no whitespace, and no value contains quotes.
fn read_member(json: &str, name: &str) -> Option<Vec<u8>> {
    let (_, rest) = json.split_once(&format!(r#""{name}":""#))?;
    base64url::decode(rest.split_once('"')?.0)
}

/// A simulated browser at an origin, with a security key. It registers and signs in as `navigator.credentials` does on
/// a page.
pub struct Browser {
    /// The security key.
    pub key: SecurityKey,
    /// The value of the option `mediation` of all calls [default: optional]. With "conditional", `get` does not wait
    /// for the user to select an account: it signs in immediately.
    pub mediation: String,
    origin: String,
    counters: HashMap<Id, [u8; 4]>,
    backup_flags: HashMap<Id, u8>,
}

impl Browser {
    /// Returns a browser with a key, at an origin such as `https://example.com` or `http://localhost:5000`.
    pub fn new(origin: &str, key: SecurityKey) -> Browser {
        Browser {
            key,
            mediation: "optional".into(),
            origin: origin.into(),
            counters: HashMap::new(),
            backup_flags: HashMap::new(),
        }
    }

    /// Registers a credential.
    ///
    /// # Errors
    ///
    /// [`Error::Dom`] if a page would get an error, such as `NotAllowedError`. [`Error::InvalidResponse`] or
    /// [`Error::OpenSsl`] if the key fails. [`Error::InvalidArgument`] if the request or the response is too long.
    pub fn create(&mut self, options: &CreationOptions) -> Result<RegistrationResponse, Error> {
        RegistrationResponse::parse(self.create_json(&options.to_json())?).ok_or(Error::InvalidResponse)
    }

    /// Registers a credential. The options are `PublicKeyCredentialCreationOptionsJSON`, and the result is
    /// `RegistrationResponseJSON`. Rejects the same options as Chromium, except that public suffixes with several
    /// labels (`co.uk`) are not supported.
    ///
    /// # Errors
    ///
    /// [`Error::Dom`] if a page would get an error, such as `NotAllowedError`. [`Error::InvalidResponse`] or
    /// [`Error::OpenSsl`] if the key fails. [`Error::InvalidArgument`] if the request or the response is too long.
    pub fn create_json(&mut self, options: &str) -> Result<String, Error> {
        self.call(Ceremony::Create, options, 0)
    }

    /// Signs in.
    ///
    /// # Errors
    ///
    /// [`Error::Dom`] if a page would get an error, such as `NotAllowedError`. [`Error::InvalidResponse`] or
    /// [`Error::OpenSsl`] if the key fails. [`Error::InvalidArgument`] if the request or the response is too long.
    pub fn get(&mut self, options: &RequestOptions) -> Result<AuthenticationResponse, Error> {
        let json = self.call(Ceremony::Get, &options.to_json(), options.account)?;
        AuthenticationResponse::parse(json).ok_or(Error::InvalidResponse)
    }

    /// Signs in. The options are `PublicKeyCredentialRequestOptionsJSON`, and the result is
    /// `AuthenticationResponseJSON`. If several accounts match, uses the newest account.
    ///
    /// # Errors
    ///
    /// [`Error::Dom`] if a page would get an error, such as `NotAllowedError`. [`Error::InvalidResponse`] or
    /// [`Error::OpenSsl`] if the key fails. [`Error::InvalidArgument`] if the request or the response is too long.
    pub fn get_json(&mut self, options: &str) -> Result<String, Error> {
        self.call(Ceremony::Get, options, 0)
    }

    fn call(&mut self, ceremony: Ceremony, options: &str, account: usize) -> Result<String, Error> {
        let (origin, mediation, abilities) =
            (self.origin.clone(), self.mediation.clone(), self.key.options.client_abilities());
        let client = ClientCall { ceremony, options, mediation: &mediation, origin: &origin, abilities };
        let (request, is_verified) = client.build_request()?;
        let mut response = self.exchange(&request)?;
        for _ in 0..account {
            if response[0] == 0 {
                response = self.exchange(&[GET_NEXT_ASSERTION])?;
            }
        }
        if response[0] == 0 {
            let altered = self.alter_response(ceremony, &request, &response, is_verified);
            response = altered.ok_or(Error::InvalidResponse)??;
        }
        client.build_credential(&response).map_err(|error| self.with_cause(error, response[0]))
    }

    /// If the key rejected the request, and the fault `status` is not injected, appends the key's cause to an
    /// [`Error::Dom`]. Returns other errors unchanged.
    fn with_cause(&mut self, error: Error, status: u8) -> Error {
        let is_rejected = status != 0 && self.key.faults.status.is_none();
        match (error, self.key.cause()) {
            (Error::Dom(name, text), cause) if is_rejected && !cause.is_empty() => {
                Error::Dom(name, format!("{text}: {cause}"))
            }
            (error, _) => error,
        }
    }

    /// Sends a CTAP2 request to the key, and returns the response including its status byte.
    fn exchange(&mut self, request: &[u8]) -> Result<Vec<u8>, Error> {
        match self.key.exchange(request) {
            Ok(data) => Ok([&[0], &data[..]].concat()),
            Err(Error::Status(status)) => Ok(vec![status]),
            Err(other) => Err(other),
        }
    }

    /// Changes a successful response as the key's options and the enabled faults require, and stores its signature
    /// counter for the fault `stale_sign_count`. Returns `None` if the response lacks a required member.
    fn alter_response(
        &mut self,
        ceremony: Ceremony,
        request: &[u8],
        response: &[u8],
        is_verified: bool,
    ) -> Option<Result<Vec<u8>, Error>> {
        let parameters = Item::decode(&request[1..])?;
        let members = Item::decode(&response[1..])?;
        let data = members.get_bytes(&Item::Number(2))?;
        let (id, hash, signature): (Id, _, _) = match ceremony {
            Ceremony::Create => (
                data.get(55..87)?.try_into().ok()?,
                parameters.get_bytes(&Item::Number(1))?,
                members.get(&Item::Number(3))?.get_bytes(&Item::from_text("sig"))?,
            ),
            Ceremony::Get => (
                members.get(&Item::Number(1))?.get_bytes(&Item::from_text("id"))?.try_into().ok()?,
                parameters.get_bytes(&Item::Number(2))?,
                members.get_bytes(&Item::Number(3))?,
            ),
        };
        if ceremony == Ceremony::Create {
            self.backup_flags.insert(id, self.key.options.backup_flags());
        }
        let verified = if is_verified { FLAG_UV } else { 0 };
        let flags = verified | self.backup_flags.get(&id).copied().unwrap_or(0);
        if flags != 0 {
            let names = flag_names(flags);
            self.key.add_comment(&format!("outside of the core: flags {names}, and the signature over them"));
        }
        let has_none = ceremony == Ceremony::Create && self.key.options.no_attestation;
        if has_none {
            self.key.add_comment("outside of the core: attestation none");
        }
        Some(self.alter_signed_data(&id, data, hash, signature, flags).map(|(data, signature)| {
            let third = match ceremony {
                Ceremony::Create if has_none => Item::Map(Vec::new()),
                Ceremony::Create => Item::from_entries([("alg", Item::Number(-7)), ("sig", Item::Bytes(signature))]),
                Ceremony::Get => Item::Bytes(signature),
            };
            let entries = (1..=4).filter_map(|key| {
                let value = match key {
                    1 if has_none => Some(Item::from_text("none")),
                    2 => Some(Item::Bytes(data.clone())),
                    3 => Some(third.clone()),
                    _ => members.get(&Item::Number(key)).cloned(),
                };
                value.map(|value| (Item::Number(key), value))
            });
            let mut changed = vec![0];
            Item::Map(entries.collect()).encode(&mut changed);
            changed
        }))
    }

    /// Sets flags in the authenticator data, injects the enabled faults, and returns the changed data and its
    /// signature. If the data changed, signs it again. The fault `truncate_by` is injected last, after signing.
    fn alter_signed_data(
        &mut self,
        id: &Id,
        data: &[u8],
        hash: &[u8],
        signature: &[u8],
        flags: u8,
    ) -> Result<(Vec<u8>, Vec<u8>), Error> {
        let faults = self.key.faults.clone();
        let mut altered = data.to_vec();
        *altered.get_mut(32).ok_or(Error::InvalidResponse)? |= flags;
        let counter = altered.get_mut(33..37).ok_or(Error::InvalidResponse)?;
        if let (true, Some(last)) = (faults.stale_sign_count, self.counters.get(id)) {
            counter.copy_from_slice(last);
        }
        self.counters.insert(*id, (&*counter).try_into().expect("4 bytes"));
        if let Some(other) = &faults.wrong_rp_id {
            altered[..32].copy_from_slice(&sha256(other.as_bytes()));
        }
        let to_sign = [&altered, hash].concat();
        let signature = match self.key.private_key(id) {
            _ if faults.bad_signature => PrivateKey::new()?.sign(&to_sign)?,
            Some(private_key) if altered != data => private_key.sign(&to_sign)?,
            _ => signature.to_vec(),
        };
        altered.truncate(altered.len().saturating_sub(faults.truncate_by));
        Ok((altered, signature))
    }
}

/// The command byte of authenticatorGetNextAssertion (CTAP 2.1, section 6.3).
const GET_NEXT_ASSERTION: u8 = 0x08;
