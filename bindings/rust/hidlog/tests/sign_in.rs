//! Registers and signs in with a [`Browser`], verifies the signatures with OpenSSL, and runs `hidlog check` on the
//! recordings if the program hidlog exists.
#![cfg(feature = "openssl")]

use hidlog::{
    sha256, AuthenticationResponse, Authenticator, AuthenticatorOptions, Browser, CreationOptions, Credential, Error,
    Faults, Need, Presence, PrivateKey, Recording, RequestOptions, SecurityKey, Verification,
};
use std::io::Write;
use std::process::{Command, Stdio};

const ORIGIN: &str = "https://login.example.com";

fn new_browser() -> Browser {
    Browser::new(ORIGIN, SecurityKey::new().unwrap())
}

fn creation_options() -> CreationOptions {
    CreationOptions { rp_id: Some("example.com".into()), ..CreationOptions::new(b"a challenge", b"ann", "Ann") }
}

fn request_options() -> RequestOptions {
    RequestOptions { rp_id: Some("example.com".into()), ..RequestOptions::new(b"a challenge") }
}

fn sign_count(assertion: &AuthenticationResponse) -> u32 {
    u32::from_be_bytes(assertion.authenticator_data[33..37].try_into().unwrap())
}

fn has_valid_signature(browser: &Browser, assertion: &AuthenticationResponse) -> bool {
    let signed = [&assertion.authenticator_data[..], &sha256(&assertion.client_data)].concat();
    browser.key.private_key(&assertion.id).unwrap().verify(&signed, &assertion.signature)
}

/// Runs `hidlog check` on each recording, if the program hidlog exists.
fn check_recordings(recordings: &[Recording]) {
    let program = std::env::var("HIDLOG_PROGRAM").unwrap_or_else(|_| "../../../release/hidlog".into());
    if !std::path::Path::new(&program).exists() {
        println!("the recordings are not checked, since the program {program} does not exist");
        return;
    }
    for (index, recording) in recordings.iter().enumerate() {
        let snapshot = std::env::temp_dir().join(format!("hidlog_{}_{index}", std::process::id()));
        let mut command = Command::new(&program);
        command.arg("check").stdin(Stdio::piped()).stdout(Stdio::piped());
        if !recording.snapshot.is_empty() {
            std::fs::write(&snapshot, &recording.snapshot).unwrap();
            command.arg("--load").arg(&snapshot);
        }
        let mut child = command.spawn().unwrap();
        child.stdin.take().unwrap().write_all(&recording.log).unwrap();
        let output = child.wait_with_output().unwrap();
        let _ = std::fs::remove_file(&snapshot);
        assert!(output.status.success() && output.stdout.starts_with(b"same "), "{output:?}");
    }
}

#[test]
fn registers_and_signs_in() {
    let mut browser = new_browser();
    let made = browser.create(&creation_options()).unwrap();
    assert_eq!(made.authenticator_data[..32], sha256(b"example.com"));
    assert_eq!(made.authenticator_data[32], 0x41);
    // The attestation object is CBOR: {"fmt": "packed", "attStmt": {"alg": -7, "sig": ..}, ..}. After this prefix, it
    // has the length of sig in one byte, and sig: a signature over the authenticator data and clientDataHash.
    let (prefix, rest) = made.attestation_object.split_at(31);
    assert_eq!(prefix, b"\xa3\x63fmt\x66packed\x67attStmt\xa2\x63alg\x26\x63sig\x58");
    let signed = [&made.authenticator_data[..], &sha256(&made.client_data)].concat();
    assert!(browser.key.private_key(&made.id).unwrap().verify(&signed, &rest[1..=usize::from(rest[0])]));
    for expected in 1..4 {
        let used = browser.get(&request_options()).unwrap();
        assert_eq!((used.id, used.user_handle.as_deref(), sign_count(&used)), (made.id, Some(&b"ann"[..]), expected));
        assert!(has_valid_signature(&browser, &used));
        let text = String::from_utf8(used.client_data.clone()).unwrap();
        let challenge = r#""challenge":"YSBjaGFsbGVuZ2U","origin":"https://login.example.com""#;
        assert!(text.starts_with(r#"{"type":"webauthn.get","#) && text.contains(challenge), "{text}");
        assert!(used.to_json().contains(r#""userHandle":"YW5u""#));
    }
    assert!(made.to_json().contains(r#""publicKeyAlgorithm":-7"#));
    check_recordings(browser.key.recordings());
}

/// Passes options as JSON, and gets responses as JSON. The user names have characters that JSON escapes.
#[test]
fn exchanges_json() {
    let mut browser = new_browser();
    let options = r#"{"rp":{"id":"example.com","name":"Example"},"challenge":"YSBjaGFsbGVuZ2U","user":{"id":"YW5u",
        "name":"Ann \"the \u00e9\"","displayName":""},"pubKeyCredParams":[{"type":"public-key","alg":-7}],
        "authenticatorSelection":{"residentKey":"required"}}"#;
    let made = browser.create_json(options).unwrap();
    assert!(made.contains(r#""clientExtensionResults":{}"#) && made.contains(r#""attestationObject":""#), "{made}");
    let used = browser.get_json(r#"{"challenge":"YSBjaGFsbGVuZ2U","rpId":"example.com"}"#).unwrap();
    assert!(used.contains(r#""userHandle":"YW5u""#), "{used}");
    assert!(browser.create(&CreationOptions { user_name: "\"\\\u{1}".into(), ..creation_options() }).is_ok());
    check_recordings(browser.key.recordings());
}

/// Tests features that the verified core does not have: the flags UV, BE and BS, attestation "none", and mediation.
#[test]
fn applies_authenticator_options() {
    let mut browser = new_browser();
    let verified = AuthenticatorOptions { verification: Verification::Verified, ..AuthenticatorOptions::default() };
    browser.key.options =
        AuthenticatorOptions { backup_eligible: true, backed_up: true, no_attestation: true, ..verified.clone() };
    let options = r#"{"rp":{"id":"example.com","name":"Example"},"challenge":"AA","user":{"id":"YW5u","name":"ann",
        "displayName":""},"pubKeyCredParams":[{"type":"public-key","alg":-7}],
        "authenticatorSelection":{"residentKey":"required","userVerification":"required"}}"#;
    let required = r#"{"challenge":"AA","rpId":"example.com","userVerification":"required"}"#;
    // The expected text is the start of {"fmt": "none", "attStmt": {}, "authData": ..} in CBOR, in base64url.
    let made = browser.create_json(options).unwrap();
    assert!(made.contains(r#""attestationObject":"o2NmbXRkbm9uZWdhdHRTdG10oGhhdXRoRGF0Y"#), "{made}");
    assert_eq!(read_flags(&made), 0x5d);
    // The credential keeps the flags BE and BS that it was created with, even if the options change.
    browser.key.options = verified;
    browser.mediation = "conditional".into();
    assert_eq!(read_flags(&browser.get_json(required).unwrap()), 0x1d);
    let log = String::from_utf8(browser.key.recordings()[0].log.clone()).unwrap();
    let count = |text: &str| log.matches(&format!("\n# outside of the core: {text}\n")).count();
    assert_eq!((count("flags UV, BE, BS, and the signature over them"), count("attestation none")), (2, 1));
    browser.key.options.verification = Verification::Failed;
    assert_eq!(browser.get_json(required).unwrap_err().dom_name(), Some("NotAllowedError"));
    browser.mediation = "now".into();
    assert_eq!(browser.get_json(required).unwrap_err().dom_name(), Some("TypeError"));
    browser.mediation = "optional".into();
    let used = browser.get(&request_options()).unwrap();
    assert!(used.authenticator_data[32] == 0x19 && has_valid_signature(&browser, &used));
    check_recordings(browser.key.recordings());
}

/// Returns the flags in the authenticator data of a credential's JSON. The flags are the byte after the RP ID hash (32
/// bytes). In base64url, the characters at the offsets 42 and 43 encode its two highest and its six lowest bits.
fn read_flags(json: &str) -> u8 {
    const ALPHABET: &[u8] = b"ABCDEFGHIJKLMNOPQRSTUVWXYZabcdefghijklmnopqrstuvwxyz0123456789-_";
    let (_, data) = json.split_once(r#""authenticatorData":""#).unwrap();
    let bits = |offset: usize| ALPHABET.iter().position(|letter| *letter == data.as_bytes()[offset]).unwrap();
    ((bits(42) << 6) | bits(43)) as u8
}

#[test]
fn follows_presence_sequence() {
    let mut browser = new_browser();
    browser.key.presence = vec![Presence::Denied, Presence::TimedOut, Presence::Granted];
    for is_accepted in [false, false, true, true] {
        let made = browser.create(&creation_options());
        assert_eq!(made.is_ok(), is_accepted);
        assert!(is_accepted || made.unwrap_err().dom_name() == Some("NotAllowedError"));
    }
    check_recordings(browser.key.recordings());
}

/// Tests that an error ends with the key's cause if the key rejected the request, and has no cause if a status was
/// injected.
#[test]
fn errors_end_with_causes() {
    let mut browser = new_browser();
    let text = |error: Error| error.to_string();
    let none = "no discoverable credential of this RP on this key";
    assert!(text(browser.get(&request_options()).unwrap_err()).ends_with(&format!(": {none}")));
    assert_eq!(browser.key.cause(), none);
    browser.key.presence = vec![Presence::Denied];
    assert!(text(browser.create(&creation_options()).unwrap_err()).ends_with(": the user refused"));
    browser.key.presence = vec![Presence::Granted];
    browser.create(&creation_options()).unwrap();
    assert_eq!(browser.key.cause(), "");
    browser.key.presence = vec![Presence::Denied];
    browser.key.faults.status = Some(0x30);
    assert!(!text(browser.get(&request_options()).unwrap_err()).contains("the user"));
}

#[test]
fn rejects_invalid_calls() {
    let mut browser = new_browser();
    let made = browser.create(&creation_options()).unwrap();
    let rejected = |browser: &mut Browser, options: CreationOptions| browser.create(&options).unwrap_err().dom_name();
    assert_eq!(
        rejected(&mut browser, CreationOptions { exclude: vec![made.id], ..creation_options() }),
        Some("InvalidStateError")
    );
    for id in ["example.org", "com", "other.login.example.com", "ample.com"] {
        assert_eq!(
            rejected(&mut browser, CreationOptions { rp_id: Some(id.into()), ..creation_options() }),
            Some("SecurityError")
        );
    }
    // Options that lack the required members rp, user and pubKeyCredParams.
    let bare = browser.create_json(r#"{"challenge":"AAECAwQFBgcICQoLDA0ODw"}"#).unwrap_err();
    assert_eq!(bare.dom_name(), Some("TypeError"));
    let nobody = browser.get(&RequestOptions { allow: vec![[9; 32]], ..request_options() });
    assert_eq!(nobody.unwrap_err().dom_name(), Some("NotAllowedError"));
    for (origin, name) in [
        ("http://example.com", "SecurityError"),
        ("example.com", "TypeError"),
        ("https://", "TypeError"),
        ("https://example.com/", "TypeError"),
    ] {
        let mut other = Browser::new(origin, SecurityKey::new().unwrap());
        assert_eq!(rejected(&mut other, CreationOptions::new(b"a", b"a", "a")), Some(name));
    }
    assert_eq!(browser.key.exchange(&[]), Err(Error::InvalidArgument("a request must have 1 to 7609 bytes")));
    assert!(browser.key.exchange(&[0; 7610]).is_err());
    assert_eq!(browser.key.exchange(&[0x55]), Err(Error::Status(0x01)));
    check_recordings(browser.key.recordings());
}

#[test]
fn injects_faults() {
    let mut browser = new_browser();
    browser.create(&creation_options()).unwrap();
    let before = sign_count(&browser.get(&request_options()).unwrap());
    browser.key.faults = Faults { stale_sign_count: true, ..Faults::default() };
    let used = browser.get(&request_options()).unwrap();
    assert!(sign_count(&used) == before && has_valid_signature(&browser, &used));
    browser.key.faults = Faults { bad_signature: true, ..Faults::default() };
    let used = browser.get(&request_options()).unwrap();
    assert!(!has_valid_signature(&browser, &used));
    browser.key.faults = Faults { wrong_rp_id: Some("example.org".into()), ..Faults::default() };
    let used = browser.get(&request_options()).unwrap();
    assert!(used.authenticator_data[..32] == sha256(b"example.org") && has_valid_signature(&browser, &used));
    browser.key.faults = Faults { truncate_by: 4, ..Faults::default() };
    assert_eq!(browser.get(&request_options()).unwrap().authenticator_data.len(), 33);
    browser.key.faults = Faults { status: Some(0x30), ..Faults::default() };
    assert_eq!(browser.get(&request_options()).unwrap_err().dom_name(), Some("NotAllowedError"));
    browser.key.faults = Faults::default();
    let used = browser.get(&request_options()).unwrap();
    assert!(sign_count(&used) > before + 4 && has_valid_signature(&browser, &used));
    check_recordings(browser.key.recordings());
}

#[test]
fn adds_and_removes_credentials() {
    let mut browser = new_browser();
    let bob = Credential {
        rp_id_hash: sha256(b"example.com"),
        id: [7; 32],
        user_id: b"bob".to_vec(),
        user_name: "Bob".into(),
        discoverable: true,
        sign_count: 41,
        ..Credential::default()
    };
    browser.key.add(&bob, PrivateKey::new().unwrap()).unwrap();
    let used = browser.get(&request_options()).unwrap();
    assert_eq!((sign_count(&used), used.user_handle.as_deref()), (42, Some(&b"bob"[..])));
    let credentials = browser.key.credentials();
    assert_eq!((credentials.len(), credentials[0].sign_count, &credentials[0].user_name[..]), (1, 42, "Bob"));
    let other = Credential { id: [8; 32], ..bob.clone() };
    assert!(matches!(browser.key.add(&other, PrivateKey::new().unwrap()), Err(Error::Core(-8, _))));
    let long = Credential { user_id: vec![0; 65], ..bob };
    assert!(matches!(browser.key.add(&long, PrivateKey::new().unwrap()), Err(Error::InvalidArgument(_))));
    assert!(matches!(browser.key.remove(&[9; 32]), Err(Error::Core(-5, _))));
    browser.key.clear().unwrap();
    assert_eq!((browser.key.credentials().len(), browser.key.recordings().len()), (0, 3));
    assert!(matches!(Authenticator::new(&[1]), Err(Error::Core(-17, _))));
    check_recordings(browser.key.recordings());
}

#[test]
fn selects_an_account() {
    let mut browser = new_browser();
    for user in [b"a", b"b", b"c"] {
        browser.create(&CreationOptions { user_id: user.to_vec(), ..creation_options() }).unwrap();
    }
    for (account, user) in [b"c", b"b", b"a"].into_iter().enumerate() {
        let used = browser.get(&RequestOptions { account, ..request_options() }).unwrap();
        assert_eq!(used.user_handle.as_deref(), Some(&user[..]));
    }
    assert_eq!(
        browser.get(&RequestOptions { account: 3, ..request_options() }).unwrap_err().dom_name(),
        Some("NotAllowedError")
    );
}

#[test]
fn moves_between_threads() {
    let threads: Vec<_> = (0..4)
        .map(|_| {
            let mut browser = new_browser();
            std::thread::spawn(move || {
                for _ in 0..10 {
                    browser.create(&creation_options()).unwrap();
                    browser.get(&request_options()).unwrap();
                }
                browser.key.recordings().to_vec()
            })
        })
        .collect();
    threads.into_iter().for_each(|thread| check_recordings(&thread.join().unwrap()));
}

#[test]
fn needs_nothing_initially() {
    assert_eq!(Authenticator::new(&[]).unwrap().need(), Need::None);
}
