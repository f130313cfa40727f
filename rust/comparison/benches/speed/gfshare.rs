//! libgfshare, where it is installed: 5 shares, any 3 of which open.

use std::cell::RefCell;
use std::ffi::{c_uchar, c_uint, c_void};

type Fill = extern "C" fn(*mut c_uchar, c_uint);

extern "C" {
    static mut gfshare_fill_rand: Option<Fill>;
    fn gfshare_ctx_init_enc(numbers: *mut c_uchar, count: c_uint, threshold: c_uchar, size: c_uint) -> *mut c_void;
    fn gfshare_ctx_init_dec(numbers: *mut c_uchar, count: c_uint, size: c_uint) -> *mut c_void;
    fn gfshare_ctx_enc_setsecret(context: *mut c_void, secret: *mut c_uchar);
    fn gfshare_ctx_enc_getshare(context: *mut c_void, number: c_uchar, share: *mut c_uchar);
    fn gfshare_ctx_dec_giveshare(context: *mut c_void, number: c_uchar, share: *mut c_uchar);
    fn gfshare_ctx_dec_extract(context: *mut c_void, secret: *mut c_uchar);
}

// One string of keys for all contexts: the longest that was given, since the library's hook names no context.
thread_local! {
    static KEYS: RefCell<Vec<u8>> = const { RefCell::new(Vec::new()) };
}

/// Key bytes are copied, since the proved library is lent its keys too.
extern "C" fn fill(to: *mut c_uchar, length: c_uint) {
    KEYS.with_borrow(|keys| {
        let many = keys.len().min(length as usize);
        // SAFETY: the library lends room for `length` bytes, which is its own, and no more are copied than the keys have.
        unsafe { std::ptr::copy_nonoverlapping(keys.as_ptr(), to, many) }
    });
}

/// The contexts are never freed: they live as long as the program.
pub struct Gfshare {
    encoder: *mut c_void,
    decoder: *mut c_void,
    pub secret: Vec<u8>,
    shares: Vec<Vec<u8>>,
    pub opened: Vec<u8>,
}

impl Gfshare {
    pub fn new(secret: Vec<u8>, keys: Vec<u8>) -> Gfshare {
        let size = secret.len();
        assert!(keys.len() >= 2 * size);
        KEYS.with_borrow_mut(|all| {
            if all.len() < keys.len() {
                *all = keys;
            }
        });
        let mut numbers = [1, 2, 3, 4, 5];
        // SAFETY: the hook is set by the one thread that measures. Each context copies as many of the five numbers as it is
        // told, and keeps no pointer to them.
        unsafe {
            gfshare_fill_rand = Some(fill);
            Gfshare {
                encoder: gfshare_ctx_init_enc(numbers.as_mut_ptr(), 5, 3, size as c_uint),
                decoder: gfshare_ctx_init_dec(numbers.as_mut_ptr(), 3, size as c_uint),
                secret,
                shares: vec![vec![0; size]; 5],
                opened: vec![0; size],
            }
        }
    }

    pub fn split(&mut self) {
        // SAFETY: the context was made for so many bytes as the secret and each share have, and for more numbers than `i`.
        unsafe {
            gfshare_ctx_enc_setsecret(self.encoder, self.secret.as_mut_ptr());
            for (i, share) in self.shares.iter_mut().enumerate() {
                gfshare_ctx_enc_getshare(self.encoder, i as c_uchar, share.as_mut_ptr());
            }
        }
    }

    pub fn reconstruct(&mut self) {
        // SAFETY: the context was made for so many bytes as each share and the output have, and for three shares.
        unsafe {
            for (i, share) in self.shares.iter_mut().enumerate().take(3) {
                gfshare_ctx_dec_giveshare(self.decoder, i as c_uchar, share.as_mut_ptr());
            }
            gfshare_ctx_dec_extract(self.decoder, self.opened.as_mut_ptr());
        }
    }
}
