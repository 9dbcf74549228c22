//! The library from Rust: each example's report, byte for byte, with a room that is too small at first; and what an audit tells of
//! those of `one`.
//!
//! usage: test_rs (WORD INPUT REPORT)..      WORD: one, replay, suspend or legacy; of replay with the steps
use std::{env, fs, process};

#[repr(C)]
#[derive(Default, PartialEq)]
struct Told {
    status: u32,
    line: u32,
    why: u32,
    object: u32,
    place: u64,
    length: usize,
}

unsafe extern "C" {
    fn kms_one(script: *const u8, size: usize, options: u32, out: *mut u8, room: usize, told: *mut Told);
    fn kms_replay(script: *const u8, size: usize, options: u32, out: *mut u8, room: usize, told: *mut Told);
    fn kms_suspend(script: *const u8, size: usize, out: *mut u8, room: usize, told: *mut Told);
    fn kms_legacy(script: *const u8, size: usize, out: *mut u8, room: usize, told: *mut Told);
    fn kms_audit(input: *const u8, size: usize, told: *mut Told);
}

fn call(word: &str, script: &[u8], out: &mut [u8]) -> Told {
    let mut told = Told::default();
    let (from, size, to, room) = (script.as_ptr(), script.len(), out.as_mut_ptr(), out.len());
    // The script and the room are slices, so neither pointer is null, and no two memories overlap.
    unsafe {
        match word {
            "one" => kms_one(from, size, 0, to, room, &mut told),
            "replay" => kms_replay(from, size, 1, to, room, &mut told),
            "suspend" => kms_suspend(from, size, to, room, &mut told),
            "legacy" => kms_legacy(from, size, to, room, &mut told),
            _ => told.status = 3,
        }
    }
    told
}

fn text(word: &str, script: &[u8]) -> Vec<u8> {
    let mut out = vec![0; 1];
    let mut told = call(word, script, &mut out);
    if told.status == 2 {
        out.resize(told.length, 0);
        told = call(word, script, &mut out);
    }
    out.truncate(told.length);
    out
}

fn audit(parts: &[&[u8]]) -> Told {
    let input = parts.concat();
    let mut told = Told::default();
    // The input is never empty, so its pointer is none that dangles.
    unsafe { kms_audit(input.as_ptr(), input.len(), &mut told) };
    told
}

fn fault(line: u32, why: u32) -> Told {
    Told { status: 4, line, why, ..Told::default() }
}

/// Audits of the report; of one with a wrong line in front; behind a script with a fault; and of none.
fn audits(script: &[u8], report: &[u8]) -> bool {
    let lines = script.iter().filter(|byte| **byte == b'\n').count() as u32;
    let wrong = Told { status: 9, line: 1, ..Told::default() };
    audit(&[script, b"report\n", report]) == Told::default()
        && audit(&[script, b"report\n", b"nothing\n", report]) == wrong
        && audit(&[b"nothing\n", script, b"report\n", report]) == fault(1, 3)
        && audit(&[script]) == fault(lines + 1, 3)
}

fn main() {
    let words: Vec<String> = env::args().skip(1).collect();
    let mut different = 0;
    for case in words.chunks_exact(3) {
        let script = fs::read(&case[1]).expect(&case[1]);
        let report = fs::read(&case[2]).expect(&case[2]);
        let alike = text(&case[0], &script) == report && (case[0] != "one" || audits(&script, &report));
        println!("{} {}: {}", case[0], case[1], if alike { "alike" } else { "different" });
        different += i32::from(!alike);
    }
    process::exit(different);
}
