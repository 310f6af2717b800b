//! Messages as they come and go: a head with `Content-Length`, an empty line, and JSON.

use std::io::{BufRead, Write};

use serde_json::{json, Value};

/// A message above this isn't read.
const MOST_BYTES: usize = 256 << 20;
/// Nor is one with a line of its head above this.
const MOST_HEAD: u64 = 1 << 16;

// Why a request is refused, by the numbers of the protocols.

pub const PARSE_ERROR: i64 = -32700;
pub const INVALID_REQUEST: i64 = -32600;
pub const METHOD_NOT_FOUND: i64 = -32601;
pub const INVALID_PARAMS: i64 = -32602;
pub const INTERNAL_ERROR: i64 = -32603;
pub const NOT_INITIALIZED: i64 = -32002;
pub const REQUEST_CANCELLED: i64 = -32800;

/// What was read.
#[derive(Debug)]
pub enum Read {
    Message(Value),
    /// The content is no JSON.
    Malformed,
    /// Nothing more comes, or nothing that can be read.
    End,
}

/// Reads the next message. Fields of the head other than the length are passed over.
pub fn read(input: &mut impl BufRead) -> Read {
    let mut length = None;
    loop {
        let mut line = Vec::new();
        match std::io::Read::take(&mut *input, MOST_HEAD).read_until(b'\n', &mut line) {
            Ok(it) if it > 0 && (it as u64) < MOST_HEAD => {}
            _ => return Read::End,
        }
        let line = String::from_utf8_lossy(&line);
        let line = line.trim();
        match (line.is_empty(), length) {
            (true, Some(_)) => break,
            (true, None) => continue,
            _ => {}
        }
        if let Some((name, value)) = line.split_once(':') {
            if name.trim().eq_ignore_ascii_case("content-length") {
                length = value.trim().parse().ok().filter(|it| *it <= MOST_BYTES);
                if length.is_none() {
                    return Read::End;
                }
            }
        }
    }
    let mut content = vec![0; length.unwrap_or(0)];
    if input.read_exact(&mut content).is_err() {
        return Read::End;
    }
    serde_json::from_slice(&content).map_or(Read::Malformed, Read::Message)
}

/// Writes a message.
pub fn write(output: &mut impl Write, message: &Value) -> std::io::Result<()> {
    let text = message.to_string();
    write!(output, "Content-Length: {}\r\n\r\n{text}", text.len())?;
    output.flush()
}

/// The result of a request.
pub fn reply(id: &Value, result: Value) -> Value {
    json!({"jsonrpc": "2.0", "id": id, "result": result})
}

/// Why a request has no result.
pub fn error(id: &Value, code: i64, message: &str) -> Value {
    json!({"jsonrpc": "2.0", "id": id, "error": {"code": code, "message": message}})
}

/// A message that asks for no reply.
pub fn notification(method: &str, params: Value) -> Value {
    json!({"jsonrpc": "2.0", "method": method, "params": params})
}

#[cfg(test)]
mod tests {
    use super::*;

    #[test]
    fn what_is_written_is_read() {
        let mut bytes = b"Content-Type: x\r\nContent-Length: 7\r\n\r\n{\"a\":1}".to_vec();
        write(&mut bytes, &json!({"b": "🦀"})).unwrap();
        bytes.extend(b"content-length:3\n\n{,}\r\nContent-Length: 9\r\n\r\n{}");
        let mut input = &bytes[..];
        assert!(matches!(read(&mut input), Read::Message(it) if it == json!({"a": 1})));
        assert!(matches!(read(&mut input), Read::Message(it) if it == json!({"b": "🦀"})));
        assert!(matches!(read(&mut input), Read::Malformed));
        assert!(matches!(read(&mut input), Read::End));
        assert!(matches!(read(&mut &b"Content-Length: many\r\n\r\n{}"[..]), Read::End));
        assert!(matches!(read(&mut &[b'x'; 100_000][..]), Read::End));
    }
}
