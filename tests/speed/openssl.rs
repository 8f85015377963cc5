//! SHA-512 and SHA-256 of OpenSSL's static library. At each call it looks up what the machine has, and that can be hidden from it.

/// Room for either state: SHA-512's takes 216 bytes.
type State = [u64; 32];
type Init = unsafe extern "C" fn(*mut State) -> i32;
type Update = unsafe extern "C" fn(*mut State, *const u8, usize) -> i32;
type Final = unsafe extern "C" fn(*mut u8, *mut State) -> i32;

extern "C" {
    fn SHA512_Init(state: *mut State) -> i32;
    fn SHA512_Update(state: *mut State, text: *const u8, text_len: usize) -> i32;
    fn SHA512_Final(digest: *mut u8, state: *mut State) -> i32;
    fn SHA256_Init(state: *mut State) -> i32;
    fn SHA256_Update(state: *mut State, text: *const u8, text_len: usize) -> i32;
    fn SHA256_Final(digest: *mut u8, state: *mut State) -> i32;
    #[link_name = "OPENSSL_ia32cap_P"]
    static mut FEATURES: [u32; 4];
}

fn hashed((init, update, end): (Init, Update, Final), message: &[u8], digest: &mut [u8; 64]) {
    let mut state: State = [0; 32];
    unsafe {
        init(&mut state);
        update(&mut state, message.as_ptr(), message.len());
        end(digest.as_mut_ptr(), &mut state);
    }
}

pub fn sha512(message: &[u8], digest: &mut [u8; 64]) {
    hashed((SHA512_Init, SHA512_Update, SHA512_Final), message, digest);
}

pub fn sha256(message: &[u8], digest: &mut [u8; 64]) {
    hashed((SHA256_Init, SHA256_Update, SHA256_Final), message, digest);
}

/// The call, made while OpenSSL takes the machine for one that has plain x86-64 and no more: no vectors, no instructions for hashes.
pub fn plainly(call: impl FnOnce()) {
    let features = std::ptr::addr_of_mut!(FEATURES);
    unsafe {
        let had = features.read_volatile();
        features.write_volatile([0; 4]);
        call();
        features.write_volatile(had);
    }
}
