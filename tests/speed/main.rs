//! Times `prim_sha512` and `prim_sha256` beside plain Rust ones, beside OpenSSL's with all that the machine has and with no vectors, and
//! beside those of another library where it is built with one, in turns within one run; and sealing and opening a token's 118 bytes.
//! The exit status is 1 where one of ours has less than half the speed of a plain one.
#![allow(unknown_lints, unexpected_cfgs)]

mod openssl;
mod plain;

use std::hint::black_box;
use std::process::ExitCode;
use std::time::{Duration, Instant};

extern "C" {
    fn prim_sha512(text: *const u8, text_len: usize, out: *mut u8, out_len: usize) -> u32;
    fn prim_sha256(text: *const u8, text_len: usize, out: *mut u8, out_len: usize) -> u32;
    #[rustfmt::skip]
    fn prim_gcm_seal(key: *const u8, key_len: usize, iv: *const u8, iv_len: usize, text: *const u8, text_len: usize,
                     out: *mut u8, out_len: usize, tag: *mut u8, tag_len: usize) -> u32;
    #[rustfmt::skip]
    fn prim_gcm_open(key: *const u8, key_len: usize, iv: *const u8, iv_len: usize, text: *const u8, text_len: usize,
                     tag: *const u8, tag_len: usize, out: *mut u8, out_len: usize) -> u32;
}

const KEY: [u8; 32] = [1; 32];
const IV: [u8; 12] = [2; 12];
const TOKEN: usize = 118;
const TURNS: usize = 20;
/// Document 02, K8: at least half the bytes per second of a plain one.
const ASKED: f64 = 0.5;

type Exported = unsafe extern "C" fn(*const u8, usize, *mut u8, usize) -> u32;

#[cfg(other)]
extern "C" {
    fn other_sha512(text: *const u8, text_len: usize, out: *mut u8, out_len: usize) -> u32;
    fn other_sha256(text: *const u8, text_len: usize, out: *mut u8, out_len: usize) -> u32;
}
#[cfg(other)]
const OTHERS: [Option<Exported>; 2] = [Some(other_sha512), Some(other_sha256)];
#[cfg(not(other))]
const OTHERS: [Option<Exported>; 2] = [None, None];

/// A hash that leaves its digest at the front, and whose it is.
type Hash = (&'static str, Box<dyn Fn(&[u8], &mut [u8; 64])>);

fn exported(whose: &'static str, hash: Exported, size: usize) -> Hash {
    let call = move |message: &[u8], digest: &mut [u8; 64]| {
        let done = unsafe { hash(message.as_ptr(), message.len(), digest.as_mut_ptr(), size) };
        assert_eq!(done, 0);
    };
    (whose, Box::new(call))
}

type Filling = fn(&[u8], &mut [u8; 64]);

/// Ours and a plain one first.
fn hashes(size: usize, ours: Exported, plain: Filling, openssl: Filling, other: Option<Exported>) -> Vec<Hash> {
    let mut all: Vec<Hash> = vec![
        exported("ours", ours, size),
        ("plain Rust", Box::new(plain)),
        ("OpenSSL", Box::new(openssl)),
        ("OpenSSL without vectors", Box::new(move |message, digest| openssl::plainly(|| openssl(message, digest)))),
    ];
    all.extend(other.map(|other| exported("the other", other, size)));
    all
}

#[rustfmt::skip]
fn sealed(text: &[u8; TOKEN]) -> ([u8; TOKEN], [u8; 16]) {
    let (mut out, mut tag) = ([0; TOKEN], [0; 16]);
    let done = unsafe { prim_gcm_seal(KEY.as_ptr(), 32, IV.as_ptr(), 12, text.as_ptr(), TOKEN, out.as_mut_ptr(), TOKEN, tag.as_mut_ptr(), 16) };
    assert_eq!(done, 0);
    (out, tag)
}

#[rustfmt::skip]
fn opened(text: &[u8; TOKEN], tag: &[u8; 16]) -> [u8; TOKEN] {
    let mut out = [0; TOKEN];
    let done = unsafe { prim_gcm_open(KEY.as_ptr(), 32, IV.as_ptr(), 12, text.as_ptr(), TOKEN, tag.as_ptr(), 16, out.as_mut_ptr(), TOKEN) };
    assert_eq!(done, 0);
    out
}

/// The time of one call, over enough calls to fill a twentieth of a second.
fn time<T>(call: impl Fn() -> T) -> f64 {
    let (mut calls, start) = (0u32, Instant::now());
    while start.elapsed() < Duration::from_millis(50) {
        for _ in 0..8 {
            black_box(call());
        }
        calls += 8;
    }
    start.elapsed().as_secs_f64() / f64::from(calls)
}

fn sealing() {
    let text = [7; TOKEN];
    let (cipher, tag) = sealed(&text);
    assert_eq!(opened(&cipher, &tag), text);
    let (mut best_seal, mut best_open) = (f64::MAX, f64::MAX);
    for _ in 0..TURNS {
        best_seal = best_seal.min(time(|| sealed(black_box(&text))));
        best_open = best_open.min(time(|| opened(black_box(&cipher), &tag)));
    }
    println!("{TOKEN} bytes: sealed in {:.1} us, opened in {:.1} us", best_seal * 1e6, best_open * 1e6);
}

fn digest((_, hash): &Hash, message: &[u8]) -> [u8; 64] {
    let mut digest = [0; 64];
    hash(message, &mut digest);
    digest
}

/// Prints the speed of each, and how often it goes into ours. Returns how often the plain one does.
fn hashing(name: &str, size: usize, hashes: &[Hash]) -> f64 {
    let message: Vec<u8> = (0..size).map(|i| (i * 7 % 251) as u8).collect();
    let mut best = vec![f64::MAX; hashes.len()];
    for hash in hashes {
        assert_eq!(digest(hash, &message), digest(&hashes[0], &message), "{}", hash.0);
    }
    for _ in 0..TURNS {
        for (best, hash) in best.iter_mut().zip(hashes) {
            *best = best.min(time(|| digest(hash, black_box(&message))));
        }
    }
    let speed = |best: f64| size as f64 / best / 1e6;
    print!("{name}, {size} bytes: {} {:.0} MB/s", hashes[0].0, speed(best[0]));
    for (best_other, (whose, _)) in best.iter().zip(hashes).skip(1) {
        print!(", {whose} {:.0} MB/s, ratio {:.2}", speed(*best_other), best_other / best[0]);
    }
    println!();
    best[1] / best[0]
}

fn main() -> ExitCode {
    sealing();
    let sha512 = hashes(64, prim_sha512, |message, digest| *digest = plain::sha512(message), openssl::sha512, OTHERS[0]);
    let sha256 = hashes(32, prim_sha256, |message, digest| digest[..32].copy_from_slice(&plain::sha256(message)), openssl::sha256, OTHERS[1]);
    let mut slowest = f64::MAX;
    for size in [4096, 65536] {
        slowest = slowest.min(hashing("SHA-512", size, &sha512));
        slowest = slowest.min(hashing("SHA-256", size, &sha256));
    }
    ExitCode::from(u8::from(slowest < ASKED))
}
