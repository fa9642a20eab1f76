//! Words as files of OpenQASM 2.0 (SPEC, "OpenQASM programs"), and what a
//! pattern program printed (SPEC, "Pattern program").

use crate::words;

const HEADER: &[u8] = b"OPENQASM 2.0;\ninclude \"qelib1.inc\";\nqreg q[1];\n";

/// What `qasm` prints for an input.
pub fn qasm(input: &[u8]) -> Vec<u8> {
    if input.len() > 65_536 {
        return b"too long\n".to_vec();
    }
    let text = input.strip_suffix(b"\n").unwrap_or(input);
    let last = text.iter().rposition(|&b| b == b'\n').map_or(0, |at| at + 1);
    let mut at = if text[last..].starts_with(b"word ") { last + 5 } else { 0 };
    if &text[at..] == b"-" {
        at += 1;
    }
    match words::text(&text[at..], usize::MAX) {
        Ok(lines) => [HEADER, &lines].concat(),
        Err(number) => format!("refused {number} at {at}\n").into_bytes(),
    }
}

/// What `unqasm` prints for an input.
pub fn unqasm(input: &[u8]) -> Vec<u8> {
    if input.len() > HEADER.len() + 8 * 65_536 {
        return b"too long\n".to_vec();
    }
    let Some(lines) = input.strip_prefix(HEADER) else {
        return b"refused 17 at 0\n".to_vec();
    };
    match words::word(lines, usize::MAX) {
        Ok(word) if word.is_empty() => b"-\n".to_vec(),
        Ok(word) => [&word, b"\n".as_slice()].concat(),
        Err(number) => format!("refused {number} at {}\n", HEADER.len()).into_bytes(),
    }
}
