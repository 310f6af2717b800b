//! Files as editors name them.

use std::path::{Path, PathBuf};

use crate::workspace::{key_of, Key};

/// The key of a file that may not be there yet.
pub(super) fn key_of_path(path: &Path) -> Option<Key> {
    let whole = path.canonicalize().ok();
    let beside = || Some(path.parent()?.canonicalize().ok()?.join(path.file_name()?));
    key_of(&whole.or_else(beside).unwrap_or_else(|| path.to_owned())).ok().filter(|it| !it.is_empty())
}

pub(super) fn key_of_uri(uri: &str) -> Option<Key> {
    key_of_path(&path_of_uri(uri)?)
}

/// The path that a URI of a file names.
pub(super) fn path_of_uri(uri: &str) -> Option<PathBuf> {
    let rest = uri.strip_prefix("file://")?;
    let rest = &rest[rest.find('/')?..];
    let mut bytes = Vec::with_capacity(rest.len());
    let mut left = rest.as_bytes();
    while let [first, more @ ..] = left {
        let hex = |it: u8| (it as char).to_digit(16);
        left = match (first, more) {
            (b'%', [high, low, behind @ ..]) => match (hex(*high), hex(*low)) {
                (Some(high), Some(low)) => {
                    bytes.push((high * 16 + low) as u8);
                    behind
                }
                _ => return None,
            },
            (it, _) => {
                bytes.push(*it);
                more
            }
        };
    }
    Some(PathBuf::from(String::from_utf8(bytes).ok()?))
}

pub(super) fn uri_of_path(path: &Path) -> String {
    let mut uri = "file://".to_owned();
    for byte in path.to_string_lossy().bytes() {
        match byte {
            b'a'..=b'z' | b'A'..=b'Z' | b'0'..=b'9' | b'/' | b'-' | b'.' | b'_' | b'~' => uri.push(byte as char),
            _ => uri.push_str(&format!("%{byte:02X}")),
        }
    }
    uri
}

#[cfg(test)]
mod tests {
    use super::*;

    #[test]
    fn paths_as_uris() {
        for path in ["/a/b.rs", "/a b/ü/🦀%.rs", "/c++/#x?.rs"] {
            assert_eq!(path_of_uri(&uri_of_path(Path::new(path))).as_deref(), Some(Path::new(path)));
        }
        assert_eq!(uri_of_path(Path::new("/a b")), "file:///a%20b");
        assert_eq!(path_of_uri("file://localhost/a%2fb").as_deref(), Some(Path::new("/a/b")));
        for bad in ["http://x/y", "file://", "file:///%zz", "file:///%ff", ""] {
            assert_eq!(path_of_uri(bad), None);
        }
    }
}
