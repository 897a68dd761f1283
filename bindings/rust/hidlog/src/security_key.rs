//! An authenticator with private keys and a simulated user.
use crate::private_keys::{random_bytes, PrivateKey};
use crate::standard::{self, CONTINUATION_DATA, INITIALIZATION_DATA, LONGEST_MESSAGE};
use crate::{Authenticator, AuthenticatorOptions, Credential, Error, Id, Need, Packet, Presence, Recording};
use std::collections::HashMap;
use std::time::Instant;

// CTAPHID commands as an initialization packet has them: with bit 7 set (CTAP 2.1, section 11.2.4).
const COMMAND_INIT: u8 = 0x80 | standard::INIT;
const COMMAND_CBOR: u8 = 0x80 | standard::CBOR;
const COMMAND_KEEPALIVE: u8 = 0x80 | standard::KEEPALIVE;

/// Errors to inject into the key's responses, to test how a relying party handles invalid responses. They are injected
/// after the authenticator has responded, so its recordings still pass `hidlog check`.
#[derive(Clone, Debug, Default, PartialEq, Eq)]
pub struct Faults {
    /// If set, replaces the CTAP status of every response.
    pub status: Option<u8>,
    /// If true, signatures are invalid: they are made with a different private key.
    pub bad_signature: bool,
    /// If true, the signature counter keeps its value in the credential's previous response. The signature is valid.
    pub stale_sign_count: bool,
    /// If set, another RP ID, whose hash replaces the RP ID hash in the authenticator data. The signature is valid.
    pub wrong_rp_id: Option<String>,
    /// The number of bytes to remove from the end of the authenticator data after signing.
    pub truncate_by: usize,
}

/// An authenticator with private keys and a simulated user. Send requests to it with `exchange`, or with a
/// [`Browser`](crate::Browser).
pub struct SecurityKey {
    authenticator: Authenticator,
    /// What the user does each time the key asks for a touch, in order; the last element is repeated. If this is empty,
    /// the user always touches the key.
    pub presence: Vec<Presence>,
    /// The faults to inject.
    pub faults: Faults,
    /// Properties that the verified core does not have, such as user verification.
    pub options: AuthenticatorOptions,
    powered_up: Instant,
    private_keys: HashMap<Id, PrivateKey>,
    channel: Option<[u8; 4]>,
}

impl SecurityKey {
    /// Returns a key without credentials.
    ///
    /// # Errors
    ///
    /// [`Error::Core`] if the library cannot initialize the key.
    pub fn new() -> Result<SecurityKey, Error> {
        Ok(SecurityKey {
            authenticator: Authenticator::new(&[])?,
            presence: Vec::new(),
            faults: Faults::default(),
            options: AuthenticatorOptions::default(),
            powered_up: Instant::now(),
            private_keys: HashMap::new(),
            channel: None,
        })
    }

    /// Returns the time since the key's power-up in milliseconds.
    fn now_ms(&self) -> u64 {
        self.powered_up.elapsed().as_millis() as u64
    }

    /// Returns the private key of the credential with this ID, if any.
    pub fn private_key(&self, id: &Id) -> Option<&PrivateKey> {
        self.private_keys.get(id)
    }

    /// Returns the credentials, oldest first.
    pub fn credentials(&mut self) -> Vec<Credential> {
        self.authenticator.credentials()
    }

    /// Adds a credential with its private key. The credential's `x` and `y` are set to the coordinates of the public
    /// key.
    ///
    /// # Errors
    ///
    /// [`Error::InvalidArgument`] if the user handle or the user name is longer than 64 bytes. [`Error::Core`] if a
    /// request is in progress, the key is full, or another discoverable credential has the same RP and user handle.
    /// [`Error::OpenSsl`] if OpenSSL fails.
    pub fn add(&mut self, credential: &Credential, private_key: PrivateKey) -> Result<(), Error> {
        let (x, y) = private_key.point()?;
        self.authenticator.add(&Credential { x, y, ..credential.clone() })?;
        self.private_keys.insert(credential.id, private_key);
        self.channel = None;
        Ok(())
    }

    /// Removes the credential with this ID.
    ///
    /// # Errors
    ///
    /// [`Error::Core`] if no credential has this ID, or a request is in progress.
    pub fn remove(&mut self, id: &Id) -> Result<(), Error> {
        self.channel = None;
        self.authenticator.remove(id)
    }

    /// Removes all credentials.
    ///
    /// # Errors
    ///
    /// [`Error::Core`] if a request is in progress.
    pub fn clear(&mut self) -> Result<(), Error> {
        self.channel = None;
        self.authenticator.clear()
    }

    /// Returns all recordings, oldest first. `add`, `remove` and `clear` begin a new recording if they succeed.
    pub fn recordings(&self) -> &[Recording] {
        self.authenticator.recordings()
    }

    /// Appends a comment line to the log of the current recording.
    pub(crate) fn add_comment(&mut self, text: &str) {
        self.authenticator.add_comment(text);
    }

    fn next_presence(&mut self) -> Presence {
        match self.presence.len() {
            0 => Presence::Granted,
            1 => self.presence[0],
            _ => self.presence.remove(0),
        }
    }

    fn provide_key_pair(&mut self) -> Result<Vec<Packet>, Error> {
        let (private_key, id) = (PrivateKey::new()?, random_bytes()?);
        let (x, y) = private_key.point()?;
        self.private_keys.insert(id, private_key);
        self.authenticator.provide_key_pair(self.now_ms(), &id, &x, &y)
    }

    fn provide_signature(&mut self, id: &Id, to_sign: &[u8]) -> Result<Vec<Packet>, Error> {
        match self.private_keys.get(id) {
            Some(private_key) => self.authenticator.provide_signature(self.now_ms(), &private_key.sign(to_sign)?),
            None => self.authenticator.refuse_signature(self.now_ms()),
        }
    }

    /// Passes a packet to the authenticator, gives it what it needs until it needs nothing more, and returns all
    /// packets that the authenticator sent.
    fn exchange_packet(&mut self, packet: &Packet) -> Result<Vec<Packet>, Error> {
        let mut sent = self.authenticator.handle_packet(self.now_ms(), packet)?;
        loop {
            let more = match self.authenticator.need() {
                Need::None => return Ok(sent),
                Need::Presence => {
                    let presence = self.next_presence();
                    self.authenticator.provide_presence(self.now_ms(), presence)
                }
                Need::KeyPair => self.provide_key_pair(),
                Need::Signature(id, to_sign) => self.provide_signature(&id, &to_sign),
            };
            sent.extend(more?);
        }
    }

    /// Sends a CTAPHID message on a channel, and returns the command and the data of the response message.
    fn transact(&mut self, channel: [u8; 4], command: u8, data: &[u8]) -> Result<(u8, Vec<u8>), Error> {
        let mut sent = Vec::new();
        for packet in fragment(channel, command, data) {
            sent.extend(self.exchange_packet(&packet)?);
        }
        reassemble(channel, &sent).ok_or(Error::InvalidResponse)
    }

    fn open_channel(&mut self) -> Result<[u8; 4], Error> {
        if let Some(channel) = self.channel {
            return Ok(channel);
        }
        let (_, data) = self.transact([0xff; 4], COMMAND_INIT, &random_bytes::<8>()?)?;
        let channel = data.get(8..12).and_then(|bytes| bytes.try_into().ok()).ok_or(Error::InvalidResponse)?;
        self.channel = Some(channel);
        Ok(channel)
    }

    /// Returns why the key rejected its last request, as a sentence without a full stop, or an empty string if it did
    /// not reject the request.
    pub fn cause(&mut self) -> String {
        self.authenticator.cause()
    }

    /// Sends a CTAP2 request, and returns the response without its status byte. The request is the byte of the
    /// authenticator command, followed by its CBOR parameters. Only the fault `status` is injected here; a
    /// [`Browser`](crate::Browser) injects the other faults.
    ///
    /// # Errors
    ///
    /// [`Error::Status`] if the status byte is not 0 (then `cause` returns why the key rejected the request), or if a
    /// status is injected. [`Error::InvalidArgument`] if the request is empty or longer than 7609 bytes.
    /// [`Error::InvalidResponse`] if the response is not valid. [`Error::OpenSsl`] if OpenSSL fails.
    pub fn exchange(&mut self, request: &[u8]) -> Result<Vec<u8>, Error> {
        if request.is_empty() || request.len() > LONGEST_MESSAGE {
            return Err(Error::InvalidArgument("a request must have 1 to 7609 bytes"));
        }
        let channel = self.open_channel()?;
        let (command, data) = self.transact(channel, COMMAND_CBOR, request)?;
        match (self.faults.status, data.first()) {
            (Some(status), _) => Err(Error::Status(status)),
            (None, Some(0)) if command == COMMAND_CBOR => Ok(data[1..].to_vec()),
            (None, Some(status)) if command == COMMAND_CBOR => Err(Error::Status(*status)),
            _ => Err(Error::InvalidResponse),
        }
    }
}

/// Splits a CTAPHID message into an initialization packet and continuation packets.
fn fragment(channel: [u8; 4], command: u8, data: &[u8]) -> Vec<Packet> {
    let (start, rest) = data.split_at(data.len().min(INITIALIZATION_DATA));
    let length = (data.len() as u16).to_be_bytes();
    let first = [&channel[..], &[command], &length, start].concat();
    let others =
        rest.chunks(CONTINUATION_DATA).zip(0u8..).map(|(data, sequence)| [&channel[..], &[sequence], data].concat());
    std::iter::once(first)
        .chain(others)
        .map(|bytes| {
            let mut packet = [0; 64];
            packet[..bytes.len()].copy_from_slice(&bytes);
            packet
        })
        .collect()
}

/// Joins the packets of the message that the key sent on a channel, and returns the message's command and data. Skips
/// KEEPALIVEs and packets on other channels. Returns `None` if the message is incomplete.
fn reassemble(channel: [u8; 4], sent: &[Packet]) -> Option<(u8, Vec<u8>)> {
    let (mut command, mut length, mut data) = (None, 0, Vec::new());
    for packet in sent.iter().filter(|packet| packet[..4] == channel && packet[4] != COMMAND_KEEPALIVE) {
        if packet[4] & 0x80 != 0 {
            command = Some(packet[4]);
            length = usize::from(u16::from_be_bytes([packet[5], packet[6]]));
            data = packet[7..].to_vec();
        } else {
            data.extend_from_slice(&packet[5..]);
        }
    }
    let command = command.filter(|_| data.len() >= length)?;
    data.truncate(length);
    Some((command, data))
}
