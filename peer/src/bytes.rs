//! Random bytes for a list program: it must end in time, with status 0, and
//! print what this one prints.

use std::error::Error;
use std::fs;
use std::io::{Read, Write};
use std::process::{Child, Command, Stdio};
use std::sync::mpsc;
use std::thread;
use std::time::{Duration, Instant};

use crate::generate::Generator;
use crate::random::Random;

const LIMIT: Duration = Duration::from_secs(20);

/// Runs `program` on inputs of a length: random bytes, and bytes that begin
/// with the records of a job. An input that fails is kept, and named.
pub fn check(program: &str, length: usize, expected: Expected) -> Result<u64, Box<dyn Error>> {
    let inputs = [random_bytes(length), records_first(length)];
    for (sort, input) in ["random", "records"].iter().zip(&inputs) {
        if let Err(fault) = check_input(program, input, expected) {
            let kept = format!("bytes-{length}-{sort}.job");
            fs::write(&kept, input)?;
            return Err(format!("{kept}: {fault}").into());
        }
    }
    Ok(inputs.len() as u64)
}

/// What the list program prints for an input.
pub type Expected = fn(&[u8]) -> Result<Vec<u8>, Box<dyn Error>>;

fn random_bytes(length: usize) -> Vec<u8> {
    let mut random = Random::new(length as u64);
    (0..length).map(|_| random.between(0, 255) as u8).collect()
}

/// A job's bytes, then random ones, zeros, or operators, to the length.
fn records_first(length: usize) -> Vec<u8> {
    let mut random = Random::new(!(length as u64));
    let mut generator = Generator::new(length as u64);
    let (_, mut bytes) = generator.job();
    let operator = generator.operator_bytes();
    match random.between(0, 2) {
        0 => {
            while bytes.len() < length {
                bytes.push(random.between(0, 255) as u8);
            }
        }
        1 => bytes.resize(length.max(bytes.len()), 0),
        _ => {
            while bytes.len() < length {
                bytes.extend_from_slice(&operator);
            }
        }
    }
    bytes.truncate(length);
    bytes
}

fn check_input(program: &str, input: &[u8], expected: Expected) -> Result<(), Box<dyn Error>> {
    let mut child = Command::new(program).stdin(Stdio::piped()).stdout(Stdio::piped()).spawn()?;
    let printed = talk(&mut child, input);
    if printed.is_none() {
        child.kill()?;
    }
    let status = child.wait()?;
    let printed = printed.ok_or("takes too long")?;
    if !status.success() {
        return Err(format!("ended with {status}").into());
    }
    if printed != expected(input)? {
        return Err("prints something else".into());
    }
    Ok(())
}

/// Feeds a program, and reads what it prints until it ends, or the time is up.
fn talk(child: &mut Child, input: &[u8]) -> Option<Vec<u8>> {
    let start = Instant::now();
    let mut stdin = child.stdin.take().expect("a pipe");
    let mut stdout = child.stdout.take().expect("a pipe");
    let input = input.to_vec();
    // A program may leave off reading where the input is too long.
    thread::spawn(move || drop(stdin.write_all(&input)));
    let (send, receive) = mpsc::channel();
    thread::spawn(move || {
        let mut printed = Vec::new();
        let read = stdout.read_to_end(&mut printed);
        drop(send.send(read.map(|_| printed)));
    });
    let printed = receive.recv_timeout(LIMIT).ok()?.ok()?;
    while child.try_wait().ok()?.is_none() {
        if start.elapsed() > LIMIT {
            return None;
        }
        thread::yield_now();
    }
    Some(printed)
}
