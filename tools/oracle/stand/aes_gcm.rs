//! Stands in for the crate aes-gcm: the names that crypto.rs takes from it, over the AES-GCM of OpenSSL's libcrypto.

pub use aead::Nonce;
use aead::generic_array::typenum::U12;
use aead::{Aead, AeadCore, Error, KeyInit, Payload};
use std::ffi::{c_int, c_void};
use std::marker::PhantomData;
use std::ptr::null_mut;

const TAG_LENGTH: usize = 16;

pub mod aead {
    use std::fmt;

    pub mod generic_array {
        pub mod typenum {
            pub struct U12;
        }
    }

    pub mod rand_core {
        pub trait RngCore {
            fn fill_bytes(&mut self, bytes: &mut [u8]);
        }
    }

    pub struct OsRng;

    impl rand_core::RngCore for OsRng {
        /// Panics where no random numbers come, as the crate's own does.
        fn fill_bytes(&mut self, bytes: &mut [u8]) {
            if let Err(e) = getrandom::getrandom(bytes) {
                panic!("Error: {e}");
            }
        }
    }

    #[derive(Debug)]
    pub struct Error;

    impl fmt::Display for Error {
        fn fmt(&self, f: &mut fmt::Formatter<'_>) -> fmt::Result {
            f.write_str("aead::Error")
        }
    }

    #[repr(transparent)]
    pub struct Nonce([u8; 12]);

    impl Nonce {
        pub fn from_slice(bytes: &[u8]) -> &Nonce {
            let bytes: &[u8; 12] = bytes.try_into().expect("twelve bytes");
            // SAFETY: a nonce is laid out as its bytes.
            unsafe { &*(bytes as *const [u8; 12]).cast() }
        }
    }

    impl std::ops::Deref for Nonce {
        type Target = [u8];

        fn deref(&self) -> &[u8] {
            &self.0
        }
    }

    pub struct Payload<'m, 'a> {
        pub msg: &'m [u8],
        pub aad: &'a [u8],
    }

    impl<'m> From<&'m [u8]> for Payload<'m, '_> {
        fn from(msg: &'m [u8]) -> Self {
            Payload { msg, aad: &[] }
        }
    }

    pub trait KeyInit: Sized {
        fn new_from_slice(key: &[u8]) -> Result<Self, Error>;
    }

    pub trait AeadCore {
        fn generate_nonce(rng: &mut impl rand_core::RngCore) -> Nonce {
            let mut bytes = [0; 12];
            rng.fill_bytes(&mut bytes);
            Nonce(bytes)
        }
    }

    pub trait Aead: AeadCore {
        fn encrypt<'m, 'a>(
            &self,
            nonce: &Nonce,
            plaintext: impl Into<Payload<'m, 'a>>,
        ) -> Result<Vec<u8>, Error>;

        fn decrypt<'m, 'a>(
            &self,
            nonce: &Nonce,
            ciphertext: impl Into<Payload<'m, 'a>>,
        ) -> Result<Vec<u8>, Error>;
    }
}

pub mod aes {
    pub struct Aes128;
    pub struct Aes192;
    pub struct Aes256;
}

/// A key size: how long its keys are, and what libcrypto calls AES-GCM with them.
pub trait KeySize {
    const KEY_LENGTH: usize;
    fn cipher() -> *const c_void;
}

impl KeySize for aes::Aes128 {
    const KEY_LENGTH: usize = 16;
    fn cipher() -> *const c_void {
        EVP_aes_128_gcm()
    }
}

impl KeySize for aes::Aes192 {
    const KEY_LENGTH: usize = 24;
    fn cipher() -> *const c_void {
        EVP_aes_192_gcm()
    }
}

impl KeySize for aes::Aes256 {
    const KEY_LENGTH: usize = 32;
    fn cipher() -> *const c_void {
        EVP_aes_256_gcm()
    }
}

pub struct AesGcm<Aes, NonceSize> {
    key: Vec<u8>,
    kind: PhantomData<(Aes, NonceSize)>,
}

pub type Aes128Gcm = AesGcm<aes::Aes128, U12>;
pub type Aes256Gcm = AesGcm<aes::Aes256, U12>;

impl<Aes: KeySize, NonceSize> KeyInit for AesGcm<Aes, NonceSize> {
    fn new_from_slice(key: &[u8]) -> Result<Self, Error> {
        if key.len() != Aes::KEY_LENGTH {
            return Err(Error);
        }
        Ok(AesGcm {
            key: key.to_vec(),
            kind: PhantomData,
        })
    }
}

impl<Aes, NonceSize> AeadCore for AesGcm<Aes, NonceSize> {}

impl<Aes: KeySize, NonceSize> Aead for AesGcm<Aes, NonceSize> {
    fn encrypt<'m, 'a>(
        &self,
        nonce: &Nonce,
        plaintext: impl Into<Payload<'m, 'a>>,
    ) -> Result<Vec<u8>, Error> {
        let Payload { msg, aad } = plaintext.into();
        let mut run = Run::start(Aes::cipher(), &self.key, nonce, SEALS);
        run.takes_aad(aad);
        let mut sealed = run.takes_text(msg);
        sealed.extend_from_slice(&run.tag());
        Ok(sealed)
    }

    fn decrypt<'m, 'a>(
        &self,
        nonce: &Nonce,
        ciphertext: impl Into<Payload<'m, 'a>>,
    ) -> Result<Vec<u8>, Error> {
        let Payload { msg, aad } = ciphertext.into();
        let end = msg.len().checked_sub(TAG_LENGTH).ok_or(Error)?;
        let mut run = Run::start(Aes::cipher(), &self.key, nonce, OPENS);
        run.takes_aad(aad);
        let text = run.takes_text(&msg[..end]);
        if run.accepts(&msg[end..]) {
            Ok(text)
        } else {
            Err(Error)
        }
    }
}

const OPENS: c_int = 0;
const SEALS: c_int = 1;
const GET_TAG: c_int = 0x10;
const SET_TAG: c_int = 0x11;

#[link(name = "crypto")]
unsafe extern "C" {
    safe fn EVP_aes_128_gcm() -> *const c_void;
    safe fn EVP_aes_192_gcm() -> *const c_void;
    safe fn EVP_aes_256_gcm() -> *const c_void;
    safe fn EVP_CIPHER_CTX_new() -> *mut c_void;
    fn EVP_CIPHER_CTX_free(context: *mut c_void);
    fn EVP_CIPHER_CTX_ctrl(
        context: *mut c_void,
        command: c_int,
        length: c_int,
        bytes: *mut u8,
    ) -> c_int;
    fn EVP_CipherInit_ex(
        context: *mut c_void,
        cipher: *const c_void,
        engine: *mut c_void,
        key: *const u8,
        nonce: *const u8,
        seals: c_int,
    ) -> c_int;
    fn EVP_CipherUpdate(
        context: *mut c_void,
        out: *mut u8,
        written: *mut c_int,
        bytes: *const u8,
        length: c_int,
    ) -> c_int;
    fn EVP_CipherFinal_ex(context: *mut c_void, out: *mut u8, written: *mut c_int) -> c_int;
}

/// One sealing or opening by libcrypto. AAD comes first, then the text, then the tag.
struct Run(*mut c_void);

impl Run {
    fn start(cipher: *const c_void, key: &[u8], nonce: &Nonce, seals: c_int) -> Run {
        let run = Run(EVP_CIPHER_CTX_new());
        // SAFETY: the key has the cipher's length, and the nonce the twelve bytes that libcrypto expects of GCM.
        let status = unsafe {
            EVP_CipherInit_ex(
                run.0,
                cipher,
                null_mut(),
                key.as_ptr(),
                nonce.as_ptr(),
                seals,
            )
        };
        assert_eq!(status, 1, "EVP_CipherInit_ex");
        run
    }

    /// Takes these bytes; the answer goes to `out`, which has their length or is null.
    fn takes(&mut self, bytes: &[u8], out: *mut u8) {
        if bytes.is_empty() {
            return;
        }
        let length = c_int::try_from(bytes.len()).expect("fewer than 2^31 bytes");
        let mut written = 0;
        // SAFETY: what lies at `out` has the length of `bytes`, and GCM answers as many bytes as it takes.
        let status = unsafe { EVP_CipherUpdate(self.0, out, &mut written, bytes.as_ptr(), length) };
        assert_eq!((status, written), (1, length), "EVP_CipherUpdate");
    }

    fn takes_aad(&mut self, aad: &[u8]) {
        self.takes(aad, null_mut());
    }

    fn takes_text(&mut self, text: &[u8]) -> Vec<u8> {
        let mut out = vec![0; text.len()];
        self.takes(text, out.as_mut_ptr());
        out
    }

    /// The tag of what was sealed.
    fn tag(mut self) -> [u8; TAG_LENGTH] {
        let mut tag = [0; TAG_LENGTH];
        assert!(self.ends(), "EVP_CipherFinal_ex");
        // SAFETY: sixteen bytes are asked for, and there is room for them.
        let status =
            unsafe { EVP_CIPHER_CTX_ctrl(self.0, GET_TAG, TAG_LENGTH as c_int, tag.as_mut_ptr()) };
        assert_eq!(status, 1, "EVP_CTRL_AEAD_GET_TAG");
        tag
    }

    /// Whether this is the tag of what was opened.
    fn accepts(mut self, tag: &[u8]) -> bool {
        let mut tag: [u8; TAG_LENGTH] = tag.try_into().expect("sixteen bytes");
        // SAFETY: sixteen bytes are handed over.
        let status =
            unsafe { EVP_CIPHER_CTX_ctrl(self.0, SET_TAG, TAG_LENGTH as c_int, tag.as_mut_ptr()) };
        assert_eq!(status, 1, "EVP_CTRL_AEAD_SET_TAG");
        self.ends()
    }

    fn ends(&mut self) -> bool {
        let mut rest = [0; TAG_LENGTH];
        let mut written = 0;
        // SAFETY: GCM writes nothing at its end, and there is room for a block.
        let status = unsafe { EVP_CipherFinal_ex(self.0, rest.as_mut_ptr(), &mut written) };
        assert_eq!(written, 0, "EVP_CipherFinal_ex");
        status == 1
    }
}

impl Drop for Run {
    fn drop(&mut self) {
        // SAFETY: the context is this one's own, and is freed once.
        unsafe { EVP_CIPHER_CTX_free(self.0) }
    }
}
