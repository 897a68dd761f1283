//! Passes packets, times and user presence to an [`Authenticator`], without a simulated user.
use hidlog::{Authenticator, Error, Need, Packet, Presence};

fn pad_packet(bytes: &[u8]) -> Packet {
    let mut packet = [0; 64];
    packet[..bytes.len()].copy_from_slice(bytes);
    packet
}

/// Sends INIT with a nonce on the broadcast channel. The expected response has the nonce, a new channel ID, versions
/// and capabilities (CTAP 2.1, section 11.2.9.1.3).
#[test]
fn responds_to_init() {
    let mut key = Authenticator::new(&[]).unwrap();
    let sent =
        key.handle_packet(0, &pad_packet(&[0xff, 0xff, 0xff, 0xff, 0x86, 0, 8, 1, 2, 3, 4, 5, 6, 7, 8])).unwrap();
    let up_to_nonce = [0xff, 0xff, 0xff, 0xff, 0x86, 0, 17, 1, 2, 3, 4, 5, 6, 7, 8];
    assert_eq!(sent, [pad_packet(&[&up_to_nonce[..], &[0, 0, 0, 1, 2, 1, 0, 0, 0x0c]].concat())]);
}

/// On the request authenticatorSelection, the authenticator sends KEEPALIVEs while it waits for user presence, and then
/// status 0x27 (OPERATION_DENIED), since the user refuses.
#[test]
fn waits_for_user_presence() {
    let mut key = Authenticator::new(&[]).unwrap();
    key.handle_packet(0, &pad_packet(&[0xff, 0xff, 0xff, 0xff, 0x86, 0, 8])).unwrap();
    key.handle_packet(10, &pad_packet(&[0, 0, 0, 1, 0x90, 0, 1, 0x0b])).unwrap();
    assert_eq!(key.need(), Need::Presence);
    assert_eq!(key.tick(200).unwrap(), [pad_packet(&[0, 0, 0, 1, 0xbb, 0, 1, 2])]);
    assert_eq!(key.provide_presence(250, Presence::Denied).unwrap(), [pad_packet(&[0, 0, 0, 1, 0x90, 0, 1, 0x27])]);
    assert_eq!(key.need(), Need::None);
    let log = String::from_utf8(key.recordings()[0].log.clone()).unwrap();
    assert!(log.contains("\np 250 denied\n< 000000019000012700"), "{log}");
}

#[test]
fn rejects_invalid_calls() {
    let mut key = Authenticator::new(&[]).unwrap();
    assert_eq!(key.provide_signature(0, &[0; 73]), Err(Error::InvalidArgument("a signature must have 1 to 72 bytes")));
    assert_eq!(key.provide_signature(0, &[]), Err(Error::InvalidArgument("a signature must have 1 to 72 bytes")));
    assert_eq!(Authenticator::new(&[0xa0]).err().unwrap().to_string(), "hidlog: the bytes are not a snapshot (-17)");
}
