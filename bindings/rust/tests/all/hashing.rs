//! SHA-256 by the standard's own examples.
use crate::case::hex;

/// Message, repeated so many times, and digest. From NIST's examples for FIPS 180-4 (SHA256.pdf, SHA2_Additional.pdf) and the byte vectors for it.
const EXAMPLES: [(&str, usize, &str); 5] = [
    ("", 1, "e3b0c44298fc1c149afbf4c8996fb92427ae41e4649b934ca495991b7852b855"),
    ("abc", 1, "ba7816bf8f01cfea414140de5dae2223b00361a396177a9cb410ff61f20015ad"),
    ("abcdbcdecdefdefgefghfghighijhijkijkljklmklmnlmnomnopnopq", 1, "248d6a61d20638b8e5c026930c3e6039a33ce45964ff2167f6ecedd419db06c1"),
    ("\0", 1000, "541b3e9daa09b20bf85fa273e5cbd3e80185aa4ec298e765db87742b70138a53"),
    ("a", 1_000_000, "cdc76e5c9914fb9281a1c7e284d73e67f1809a48a497200e046d39ccc7112cd0"),
];

#[test]
fn the_standards_examples() {
    for (message, times, digest) in EXAMPLES {
        let message = message.repeat(times).into_bytes();
        match signon::hash(&message) {
            Ok(hashed) => assert_eq!(hex(&hashed), digest),
            Err(refusal) => assert_eq!((message.len(), refusal.number), (1_000_000, signon::Number::Shape)),
        }
    }
}
