//! Stands for the crate ed25519-dalek 1.0. SHA-512 is the true one; a signature is valid when it
//! equals a tag of key and message, so that a run can make one for any key and spoil it at will.

pub use sha2::{Digest, Sha512};
use std::convert::TryInto;

pub mod ed25519 {
    use std::fmt;

    #[derive(Debug)]
    pub struct Error;

    impl fmt::Display for Error {
        fn fmt(&self, f: &mut fmt::Formatter) -> fmt::Result {
            f.write_str("signature error")
        }
    }

    impl std::error::Error for Error {}

    pub mod signature {
        pub trait Signature: Sized {
            fn from_bytes(bytes: &[u8]) -> Result<Self, super::Error>;
        }
    }
}

use ed25519::Error;

#[derive(Clone, Copy, PartialEq)]
pub struct Signature([u8; 64]);

impl Signature {
    pub fn to_bytes(self) -> [u8; 64] {
        self.0
    }
}

impl ed25519::signature::Signature for Signature {
    fn from_bytes(bytes: &[u8]) -> Result<Self, Error> {
        bytes.try_into().map(Signature).map_err(|_| Error)
    }
}

fn tag(key: &[u8; 32], message: &[u8]) -> Signature {
    let mut bytes = [0x5a; 64];
    for i in 0..32 {
        let m = message[i % message.len()];
        bytes[i] ^= key[i] ^ m;
        bytes[32 + i] = key[31 - i].wrapping_add(m).wrapping_add(1);
    }
    Signature(bytes)
}

#[derive(Clone, Copy)]
pub struct PublicKey([u8; 32]);

impl PublicKey {
    pub fn from_bytes(bytes: &[u8]) -> Result<Self, Error> {
        bytes.try_into().map(PublicKey).map_err(|_| Error)
    }

    pub fn to_bytes(&self) -> [u8; 32] {
        self.0
    }

    pub fn verify_strict(&self, message: &[u8], signature: &Signature) -> Result<(), Error> {
        if *signature == tag(&self.0, message) {
            Ok(())
        } else {
            Err(Error)
        }
    }
}

/// 64 bytes, as in the crate: the secret key, which is not used here, then the public key.
pub struct Keypair {
    pub public: PublicKey,
}

impl Keypair {
    pub fn generate<R: rand::CryptoRng + rand::RngCore>(rng: &mut R) -> Self {
        let mut key = [0; 32];
        rng.fill_bytes(&mut key);
        Keypair {
            public: PublicKey(key),
        }
    }

    pub fn to_bytes(&self) -> [u8; 64] {
        let mut bytes = [0; 64];
        bytes[32..].copy_from_slice(&self.public.0);
        bytes
    }

    pub fn from_bytes(bytes: &[u8]) -> Result<Self, Error> {
        let public = PublicKey::from_bytes(&bytes[32..])?;
        Ok(Keypair { public })
    }
}

pub trait Signer {
    fn sign(&self, message: &[u8]) -> Signature;
}

impl Signer for Keypair {
    fn sign(&self, message: &[u8]) -> Signature {
        tag(&self.public.0, message)
    }
}

pub fn verify_batch(
    messages: &[&[u8]],
    signatures: &[Signature],
    keys: &[PublicKey],
) -> Result<(), Error> {
    if messages.len() != signatures.len() || signatures.len() != keys.len() {
        return Err(Error);
    }
    (0..keys.len()).try_for_each(|i| keys[i].verify_strict(messages[i], &signatures[i]))
}
