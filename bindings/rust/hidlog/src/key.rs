//! The authenticator: safe functions for the C library's in-memory key, and recordings of its sessions.
use crate::Error;
use hidlog_sys as sys;
use std::fmt::{self, Write};

/// A CTAPHID packet.
pub type Packet = [u8; 64];
/// A credential ID.
pub type Id = [u8; 32];

/// Maximum length in bytes of the sentence that `cause` returns: `hidlog_key_cause` in `hidlog.h`.
const CAUSE_CAPACITY: usize = 160;

/// What the user does when the authenticator asks for a touch.
#[derive(Clone, Copy, Debug, PartialEq, Eq)]
pub enum Presence {
    /// The user touches the key.
    Granted,
    /// The user refuses.
    Denied,
    /// The user does nothing until the authenticator's timeout.
    TimedOut,
}

/// What an authenticator needs from its caller to continue its request.
#[derive(Clone, Debug, PartialEq, Eq)]
pub enum Need {
    /// Nothing: the authenticator has no request that needs the caller.
    None,
    /// User presence: [`Authenticator::provide_presence`].
    Presence,
    /// A new key pair: [`Authenticator::provide_key_pair`].
    KeyPair,
    /// A signature over these bytes (ECDSA with SHA-256, in DER), with the private key of the credential that has this
    /// ID: [`Authenticator::provide_signature`].
    Signature(Id, Vec<u8>),
}

/// A credential without its private key.
#[derive(Clone, Debug, Default, PartialEq, Eq)]
pub struct Credential {
    /// SHA-256 of the RP ID.
    pub rp_id_hash: [u8; 32],
    /// The credential ID.
    pub id: Id,
    /// The x coordinate of the public key on P-256.
    pub x: [u8; 32],
    /// The y coordinate of the public key on P-256.
    pub y: [u8; 32],
    /// The user handle, at most 64 bytes.
    pub user_id: Vec<u8>,
    /// The user's name, at most 64 bytes.
    pub user_name: String,
    /// Whether the credential is discoverable.
    pub discoverable: bool,
    /// The signature counter.
    pub sign_count: u32,
}

/// The log of a session, and the snapshot of the credentials with which the session started. `hidlog check --load
/// SNAPSHOT LOG` checks a recording.
#[derive(Clone, Debug, Default, PartialEq, Eq)]
pub struct Recording {
    /// The snapshot of the credentials at the session's start, or empty if it started without a snapshot.
    pub snapshot: Vec<u8>,
    /// The log.
    pub log: Vec<u8>,
}

/// 16 bytes of a key's memory, with the alignment that the C library requires. `u128` can't replace this type: before
/// Rust 1.77, it is aligned to only 8 bytes on x86-64.
#[repr(align(16))]
#[derive(Clone, Copy)]
struct AlignedBlock(#[allow(dead_code)] [u8; 16]);

/// The formally verified core, without private keys and without a simulated user. The caller passes in the host's
/// packets, and user presence, key pairs and signatures when they are needed; the authenticator returns packets for the
/// host. Times are milliseconds since power-up. Each input is recorded. If a function returns an error, its input is
/// not recorded, and the authenticator is unchanged.
pub struct Authenticator {
    // `key` has a pointer to `_memory`. The C library requires that neither of them moves while the key is initialized.
    key: Box<sys::hidlog_key>,
    _memory: Vec<AlignedBlock>,
    recordings: Vec<Recording>,
}

// SAFETY: hidlog.h allows calls from any thread, if no two calls for one key run at the same time. They don't, since
// each function that calls the library takes `&mut self`.
unsafe impl Send for Authenticator {}

impl Authenticator {
    /// Returns an authenticator with the credentials of a snapshot, or without credentials if the snapshot is empty.
    ///
    /// # Errors
    ///
    /// [`Error::Core`] if the snapshot is invalid.
    pub fn new(snapshot: &[u8]) -> Result<Authenticator, Error> {
        // SAFETY: this C function has no arguments and no state.
        let size = unsafe { sys::hidlog_key_size() };
        let mut memory = vec![AlignedBlock([0; 16]); (size + 15) / 16];
        let mut key = Box::new(sys::hidlog_key { memory: memory.as_mut_ptr().cast(), state: 0 });
        let aaguid = [0u8; 16];
        // SAFETY: no pointer is null, not even that of an empty slice. The memory has the size that the library needs,
        // is aligned to 16 bytes, and does not move, since it is on the heap; neither does `key`.
        let status = unsafe { sys::hidlog_key_init(&mut *key, aaguid.as_ptr(), 0, snapshot.as_ptr(), snapshot.len()) };
        if status < 0 {
            return Err(Error::from_code(status));
        }
        let recordings = vec![Recording { snapshot: snapshot.to_vec(), log: Vec::new() }];
        Ok(Authenticator { key, _memory: memory, recordings })
    }

    /// Calls `call`, which must pass an input to the C library, and returns the packets that the authenticator sends.
    /// Appends `line`, the input's line in the log, and the lines of these packets to the recording.
    fn handle_input(
        &mut self,
        line: fmt::Arguments<'_>,
        call: impl FnOnce(&mut sys::hidlog_key) -> i32,
    ) -> Result<Vec<Packet>, Error> {
        let status = call(&mut self.key);
        if status < 0 {
            return Err(Error::from_code(status));
        }
        let log = &mut self.recordings.last_mut().expect("never empty").log;
        log.extend_from_slice(format!("{line}\n").as_bytes());
        let mut sent = Vec::new();
        let mut packet = [0; 64];
        // SAFETY: the key is initialized, and a packet has 64 bytes.
        while unsafe { sys::hidlog_key_read_packet(&mut *self.key, packet.as_mut_ptr()) } >= 0 {
            log.extend_from_slice(format!("< {}\n", to_hex(&packet)).as_bytes());
            sent.push(packet);
        }
        Ok(sent)
    }

    /// Handles a packet from the host, and returns the packets sent in response.
    pub fn handle_packet(&mut self, time_ms: u64, packet: &Packet) -> Result<Vec<Packet>, Error> {
        // SAFETY: the key is initialized, and a packet has 64 bytes.
        self.handle_input(format_args!("> {time_ms} {}", to_hex(packet)), |key| unsafe {
            sys::hidlog_key_write_packet(key, time_ms, packet.as_ptr())
        })
    }

    /// Tells the authenticator the current time, so that it can handle timeouts and send KEEPALIVEs, and returns the
    /// packets that it sends.
    pub fn tick(&mut self, time_ms: u64) -> Result<Vec<Packet>, Error> {
        // SAFETY: the key is initialized.
        self.handle_input(format_args!("t {time_ms}"), |key| unsafe { sys::hidlog_key_tick(key, time_ms) })
    }

    /// Tells an authenticator that needs user presence ([`Need::Presence`]) what the user did.
    pub fn provide_presence(&mut self, time_ms: u64, presence: Presence) -> Result<Vec<Packet>, Error> {
        let (word, number) = match presence {
            Presence::Granted => ("granted", 0),
            Presence::Denied => ("denied", 1),
            Presence::TimedOut => ("timeout", 2),
        };
        // SAFETY: the key is initialized.
        self.handle_input(format_args!("p {time_ms} {word}"), |key| unsafe {
            sys::hidlog_key_provide_presence(key, time_ms, number)
        })
    }

    /// Provides a new key pair: the ID of the new credential, and the coordinates of its public key on P-256. The
    /// caller keeps the private key.
    pub fn provide_key_pair(
        &mut self,
        time_ms: u64,
        id: &Id,
        x: &[u8; 32],
        y: &[u8; 32],
    ) -> Result<Vec<Packet>, Error> {
        // SAFETY: the key is initialized, and each pointer is to 32 bytes.
        self.handle_input(format_args!("k {time_ms} {} {} {}", to_hex(id), to_hex(x), to_hex(y)), |key| unsafe {
            sys::hidlog_key_provide_key_pair(key, time_ms, id.as_ptr(), x.as_ptr(), y.as_ptr())
        })
    }

    /// Tells an authenticator that needs a key pair ([`Need::KeyPair`]) that the caller cannot provide one.
    pub fn refuse_key_pair(&mut self, time_ms: u64) -> Result<Vec<Packet>, Error> {
        // SAFETY: the key is initialized.
        self.handle_input(format_args!("k {time_ms} no"), |key| unsafe {
            sys::hidlog_key_refuse_key_pair(key, time_ms)
        })
    }

    /// Provides a signature in DER, 1 to 72 bytes long.
    ///
    /// # Errors
    ///
    /// [`Error::InvalidArgument`] if the signature is empty or longer than 72 bytes.
    pub fn provide_signature(&mut self, time_ms: u64, signature: &[u8]) -> Result<Vec<Packet>, Error> {
        if signature.is_empty() || signature.len() > 72 {
            return Err(Error::InvalidArgument("a signature must have 1 to 72 bytes"));
        }
        // SAFETY: the key is initialized, and the signature's length is passed with its pointer.
        self.handle_input(format_args!("s {time_ms} {}", to_hex(signature)), |key| unsafe {
            sys::hidlog_key_provide_signature(key, time_ms, signature.as_ptr(), signature.len())
        })
    }

    /// Tells an authenticator that needs a signature ([`Need::Signature`]) that the caller cannot provide one.
    pub fn refuse_signature(&mut self, time_ms: u64) -> Result<Vec<Packet>, Error> {
        // SAFETY: the key is initialized.
        self.handle_input(format_args!("s {time_ms} no"), |key| unsafe {
            sys::hidlog_key_refuse_signature(key, time_ms)
        })
    }

    /// Returns why the authenticator responded to its last input with an ERROR packet or with a status other than 0, as
    /// a sentence without a full stop. Returns an empty string if there was no such response, or no input since
    /// power-up.
    pub fn cause(&mut self) -> String {
        let mut cause = sys::hidlog_cause::default();
        let mut text = vec![0; CAUSE_CAPACITY];
        // SAFETY: the key is initialized, and `text` has `CAUSE_CAPACITY` bytes.
        let len = unsafe { sys::hidlog_key_cause(&mut *self.key, 1, &mut cause, text.as_mut_ptr(), CAUSE_CAPACITY) };
        text.truncate(usize::try_from(len).unwrap_or(0));
        String::from_utf8_lossy(&text).into_owned()
    }

    /// Returns what the authenticator needs from the caller now.
    pub fn need(&mut self) -> Need {
        let mut need = sys::hidlog_need { kind: 0, to_sign_len: 0, id: [0; 32], to_sign: [0; 196] };
        // SAFETY: the key is initialized.
        unsafe { sys::hidlog_key_get_need(&mut *self.key, &mut need) };
        match need.kind {
            sys::HIDLOG_NEED_PRESENCE => Need::Presence,
            sys::HIDLOG_NEED_KEY_PAIR => Need::KeyPair,
            sys::HIDLOG_NEED_SIGNATURE => Need::Signature(need.id, need.to_sign[..need.to_sign_len as usize].to_vec()),
            _ => Need::None,
        }
    }

    /// Returns the credentials on the authenticator, oldest first.
    pub fn credentials(&mut self) -> Vec<Credential> {
        let mut row = to_c_credential(&Credential::default());
        // SAFETY: the key is initialized.
        let mut next =
            |index| unsafe { sys::hidlog_key_get_credential(&mut *self.key, index, &mut row) == 0 }.then_some(row);
        (0..).map_while(&mut next).map(|row| from_c_credential(&row)).collect()
    }

    /// Begins a new recording after a C function that changes the credentials, which also power-cycles the
    /// authenticator. `status` is the return value of that function; if it is an error code, returns the error instead.
    fn begin_recording(&mut self, status: i32) -> Result<(), Error> {
        if status < 0 {
            return Err(Error::from_code(status));
        }
        let snapshot = self.snapshot();
        self.recordings.push(Recording { snapshot, log: Vec::new() });
        Ok(())
    }

    /// Adds a credential, or replaces the one with the same ID. Like `remove` and `clear`, it power-cycles the
    /// authenticator.
    ///
    /// # Errors
    ///
    /// [`Error::InvalidArgument`] if the user handle or the user name is longer than 64 bytes. [`Error::Core`] if a
    /// request is in progress, the key is full, or another discoverable credential has the same RP and user handle.
    pub fn add(&mut self, credential: &Credential) -> Result<(), Error> {
        if credential.user_id.len() > 64 || credential.user_name.len() > 64 {
            return Err(Error::InvalidArgument("user_id and user_name must have at most 64 bytes each"));
        }
        // SAFETY: the key is initialized.
        let status = unsafe { sys::hidlog_key_add_credential(&mut *self.key, 0, &to_c_credential(credential)) };
        self.begin_recording(status)
    }

    /// Removes the credential with this ID, and power-cycles the authenticator.
    ///
    /// # Errors
    ///
    /// [`Error::Core`] if no credential has this ID, or a request is in progress.
    pub fn remove(&mut self, id: &Id) -> Result<(), Error> {
        // SAFETY: the key is initialized.
        let status = unsafe { sys::hidlog_key_remove_credential(&mut *self.key, 0, id.as_ptr()) };
        self.begin_recording(status)
    }

    /// Removes all credentials, and power-cycles the authenticator.
    ///
    /// # Errors
    ///
    /// [`Error::Core`] if a request is in progress.
    pub fn clear(&mut self) -> Result<(), Error> {
        // SAFETY: the key is initialized.
        let status = unsafe { sys::hidlog_key_clear_credentials(&mut *self.key, 0) };
        self.begin_recording(status)
    }

    /// Returns the credentials, without private keys, as a snapshot for [`Authenticator::new`] and `hidlog check
    /// --load`.
    pub fn snapshot(&mut self) -> Vec<u8> {
        let mut out = vec![0; sys::HIDLOG_SNAPSHOT_MAX_LEN];
        // SAFETY: the key is initialized, and `out` has `out.len()` bytes.
        let len = unsafe { sys::hidlog_key_save_snapshot(&mut *self.key, out.as_mut_ptr(), out.len()) };
        out.truncate(len.max(0) as usize);
        out
    }

    /// Appends a comment line to the log of the current recording.
    #[cfg(feature = "openssl")]
    pub(crate) fn add_comment(&mut self, text: &str) {
        let log = &mut self.recordings.last_mut().expect("never empty").log;
        log.extend_from_slice(format!("# {text}\n").as_bytes());
    }

    /// Returns all recordings, oldest first. `add`, `remove` and `clear` begin a new recording if they succeed.
    pub fn recordings(&self) -> &[Recording] {
        &self.recordings
    }
}

impl Drop for Authenticator {
    fn drop(&mut self) {
        // SAFETY: the key is initialized, and is not used after this call.
        unsafe { sys::hidlog_key_destroy(&mut *self.key) };
    }
}

fn to_hex(bytes: &[u8]) -> String {
    bytes.iter().fold(String::with_capacity(2 * bytes.len()), |mut text, byte| {
        write!(text, "{byte:02x}").expect("writing to a String");
        text
    })
}

fn to_c_credential(credential: &Credential) -> sys::hidlog_credential {
    let (mut user_id, mut user_name) = ([0; 64], [0; 64]);
    user_id[..credential.user_id.len()].copy_from_slice(&credential.user_id);
    user_name[..credential.user_name.len()].copy_from_slice(credential.user_name.as_bytes());
    sys::hidlog_credential {
        rp_id_hash: credential.rp_id_hash,
        id: credential.id,
        x: credential.x,
        y: credential.y,
        user_id,
        user_name,
        user_id_len: credential.user_id.len() as u32,
        user_name_len: credential.user_name.len() as u32,
        discoverable: credential.discoverable.into(),
        sign_count: credential.sign_count,
    }
}

fn from_c_credential(row: &sys::hidlog_credential) -> Credential {
    Credential {
        rp_id_hash: row.rp_id_hash,
        id: row.id,
        x: row.x,
        y: row.y,
        user_id: row.user_id[..row.user_id_len as usize].to_vec(),
        user_name: String::from_utf8_lossy(&row.user_name[..row.user_name_len as usize]).into_owned(),
        discoverable: row.discoverable == 1,
        sign_count: row.sign_count,
    }
}
