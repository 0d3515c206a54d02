//! MD5 against plain C at -O3 and OpenSSL's.

use crate::timing::{row, Contender};
use std::hint::black_box;
use std::ptr::null;

extern "C" {
    fn plain_md5(text: *const u8, len: usize, digest: *mut u8);
    fn EVP_md5() -> *const u8;
    fn EVP_MD_CTX_new() -> *mut u8;
    fn EVP_DigestInit_ex(context: *mut u8, kind: *const u8, engine: *const u8) -> i32;
    fn EVP_DigestUpdate(context: *mut u8, text: *const u8, len: usize) -> i32;
    fn EVP_DigestFinal_ex(context: *mut u8, digest: *mut u8, len: *mut u32) -> i32;
    fn EVP_MD_CTX_free(context: *mut u8);
}

/// OpenSSL's digest, in a context that is made once.
struct OpenSsl {
    context: *mut u8,
}

impl OpenSsl {
    fn new() -> OpenSsl {
        // SAFETY: takes nothing.
        let context = unsafe { EVP_MD_CTX_new() };
        assert!(!context.is_null());
        OpenSsl { context }
    }

    fn md5(&mut self, text: &[u8]) -> [u8; 16] {
        let mut digest = [0; 16];
        // SAFETY: the context is alive, the text readable, and an MD5 digest has sixteen bytes.
        unsafe {
            EVP_DigestInit_ex(self.context, EVP_md5(), null());
            EVP_DigestUpdate(self.context, text.as_ptr(), text.len());
            EVP_DigestFinal_ex(self.context, digest.as_mut_ptr(), std::ptr::null_mut());
        }
        digest
    }
}

impl Drop for OpenSsl {
    fn drop(&mut self) {
        // SAFETY: the context is freed once.
        unsafe { EVP_MD_CTX_free(self.context) };
    }
}

fn plain(text: &[u8]) -> [u8; 16] {
    let mut digest = [0; 16];
    // SAFETY: the text is readable for its length, and sixteen bytes are written.
    unsafe { plain_md5(text.as_ptr(), text.len(), digest.as_mut_ptr()) };
    digest
}

pub fn md5() {
    let mut openssl = OpenSsl::new();
    for length in [16, 64, 265, 1024, 1 << 20] {
        let text: Vec<u8> = (0..length).map(|i| (i * 31 % 251) as u8).collect();
        assert_eq!(birkenschuh::md5(&text), plain(&text));
        assert_eq!(birkenschuh::md5(&text), openssl.md5(&text));
        row(
            &format!("MD5, {length} bytes"),
            &mut [
                Contender {
                    name: "ours",
                    run: &mut || {
                        black_box(birkenschuh::md5(black_box(&text)));
                    },
                },
                Contender {
                    name: "plain C, -O3",
                    run: &mut || {
                        black_box(plain(black_box(&text)));
                    },
                },
                Contender {
                    name: "OpenSSL",
                    run: &mut || {
                        black_box(openssl.md5(black_box(&text)));
                    },
                },
            ],
        );
    }
}
