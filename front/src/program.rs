//! The resolver's program, as a child that reads a command a line and writes a reply a line.

use std::io::{BufRead, BufReader, BufWriter, Read, Write};
use std::path::{Path, PathBuf};
use std::process::{Child, ChildStdin, ChildStdout, Command, Stdio};

use anyhow::{anyhow, bail, Context, Result};
use serde_json::Value;

use crate::token::Hash;

/// The variable of the environment that names the program.
pub const VARIABLE: &str = "NOGSIMAT_PROGRAM";

/// A line above this isn't taken by the program.
pub const MOST_BYTES: usize = 16_777_216;

/// A reply above this counts as one that has no end.
const MOST_OF_REPLY: u64 = 256 << 20;

/// A running process of the program.
pub struct Program {
    path: PathBuf,
    child: Child,
    input: BufWriter<ChildStdin>,
    output: BufReader<ChildStdout>,
    answered: usize,
    /// What was asked, with the hash of each reply, where that is noted.
    pub(crate) noted: Option<Vec<(String, String)>>,
}

/// Where the program is: what is named, here or by the variable, else the proved one of the repository that this was built in, else its
/// unproved one, else `hir_session` beside this executable or on the path.
pub fn find(named: Option<&Path>) -> Result<PathBuf> {
    let named = named.map(Path::to_owned).or_else(|| std::env::var_os(VARIABLE).map(PathBuf::from));
    if let Some(it) = named {
        if !it.is_file() {
            bail!("the program {} isn't there; name one by --program or {VARIABLE}", it.display());
        }
        return Ok(it);
    }
    let top = Path::new(env!("CARGO_MANIFEST_DIR")).parent().unwrap_or(Path::new("."));
    let mut places =
        vec![top.join("crates/hir_session_main/out/hir_session_main"), top.join("unproved/hir_session_main")];
    let own = std::env::current_exe().ok();
    places.extend(own.and_then(|it| it.parent().map(|it| it.join("hir_session"))));
    let path = std::env::var_os("PATH").unwrap_or_default();
    places.extend(std::env::split_paths(&path).map(|it| it.join("hir_session")));
    places.into_iter().find(|it| it.is_file()).ok_or_else(|| {
        anyhow!(
            "the resolver's program isn't there. Build it with tools/unproved.sh in Nogsimat's repository, or name it by \
             --program FILE or by the variable {VARIABLE}"
        )
    })
}

impl Program {
    /// Starts the program at a path.
    pub fn start(path: &Path) -> Result<Program> {
        let mut child = Command::new(path)
            .stdin(Stdio::piped())
            .stdout(Stdio::piped())
            .spawn()
            .with_context(|| format!("the program {} doesn't start", path.display()))?;
        let input = BufWriter::with_capacity(1 << 16, child.stdin.take().expect("its input is a pipe"));
        let output = BufReader::with_capacity(1 << 16, child.stdout.take().expect("its output is a pipe"));
        Ok(Program { path: path.to_owned(), child, input, output, answered: 0, noted: None })
    }

    /// The number of the process.
    pub fn id(&self) -> u32 {
        self.child.id()
    }

    /// Whether the process hasn't ended.
    pub fn is_running(&mut self) -> bool {
        matches!(self.child.try_wait(), Ok(None))
    }

    /// Ends the process.
    pub fn end(&mut self) {
        let _ = self.child.kill();
        let _ = self.child.wait();
    }

    /// The replies to the commands, in order.
    pub fn ask_all(&mut self, lines: &[String]) -> Result<Vec<Value>> {
        let is_noted = self.noted.is_some();
        let hashed = |text: &str| if is_noted { hash_of(text) } else { String::new() };
        let replies = self.exchange(lines, |text| Some((reply_in(text)?, hashed(text))))?;
        let (replies, hashes): (Vec<Value>, Vec<String>) = replies.into_iter().unzip();
        if let Some(noted) = &mut self.noted {
            noted.extend(lines.iter().cloned().zip(hashes));
        }
        Ok(replies)
    }

    /// The same as texts, each a line.
    pub(crate) fn texts(&mut self, lines: &[&str]) -> Result<Vec<String>> {
        let is_reply = |text: &str| ["{\"ok\":", "{\"error\":"].iter().any(|it| text.starts_with(it));
        self.exchange(lines, |text| is_reply(text).then(|| text.to_owned()))
    }

    /// Whether the program takes all of these commands, none of which asks for something.
    pub(crate) fn takes(&mut self, lines: &[&str]) -> Result<bool> {
        let replies = self.exchange(lines, |text| Some(text.trim_end() == "{\"ok\":null}"))?;
        Ok(replies.into_iter().all(|it| it))
    }

    /// Sends the commands, and answers what `read` makes of the replies. What it makes nothing of is none.
    fn exchange<T: Send>(
        &mut self,
        lines: &[impl AsRef<str> + Sync],
        read: impl Fn(&str) -> Option<T>,
    ) -> Result<Vec<T>> {
        let Program { input, output, child, .. } = self;
        let mut replies = Vec::with_capacity(lines.len());
        let fault = std::thread::scope(|scope| {
            scope.spawn(move || {
                for line in lines {
                    if input.write_all(line.as_ref().as_bytes()).and_then(|()| input.write_all(b"\n")).is_err() {
                        return;
                    }
                }
                let _ = input.flush();
            });
            let next = |_| read_reply(output, MOST_OF_REPLY, &read).map(|it| replies.push(it)).err();
            let fault = lines.iter().find_map(next);
            if fault.is_some() {
                // It may read no further, so that the rest can't be written.
                let _ = child.kill();
            }
            fault
        });
        self.answered += replies.len();
        match fault {
            None => Ok(replies),
            Some(None) => Err(self.ended()),
            Some(Some(text)) => Err(self.astray(&text)),
        }
    }

    /// The reply to one command.
    pub fn ask(&mut self, line: String) -> Result<Value> {
        let mut replies = self.ask_all(&[line])?;
        replies.pop().context("one reply for one command")
    }

    /// What is told of a reply that is none.
    fn astray(&mut self, text: &str) -> anyhow::Error {
        self.end();
        let shown: String = text.trim_end().chars().take(60).collect();
        anyhow!(
            "the program {} isn't Nogsimat's, or is at fault: its reply {} is `{shown}`; name another by --program or by \
             the variable {VARIABLE}",
            self.path.display(),
            self.answered + 1
        )
    }

    /// Why no reply came.
    fn ended(&mut self) -> anyhow::Error {
        let _ = self.child.kill();
        let how = match self.child.wait() {
            Ok(it) => it.to_string(),
            Err(it) => it.to_string(),
        };
        anyhow!(
            "the program {} stopped after {} replies ({how}). Call this again; where it stops again, `cargo nogsimat \
             session > FILE` keeps what it was given, for a report",
            self.path.display(),
            self.answered
        )
    }
}

/// What is made of the next line, or the line of which nothing is, as of one of so many bytes; without a line nothing comes
/// any more.
fn read_reply<T>(
    output: &mut impl BufRead,
    most: u64,
    read: impl Fn(&str) -> Option<T>,
) -> std::result::Result<T, Option<String>> {
    let mut bytes = Vec::new();
    match output.take(most).read_until(b'\n', &mut bytes) {
        Ok(0) | Err(_) => return Err(None),
        Ok(_) => {}
    }
    let text = std::str::from_utf8(&bytes).ok().filter(|it| (it.len() as u64) < most);
    text.and_then(read).ok_or_else(|| Some(String::from_utf8_lossy(&bytes[..bytes.len().min(1000)]).into_owned()))
}

/// Of a reply.
pub(crate) fn hash_of(reply: &str) -> String {
    Hash::default().with(reply.trim_end()).text()
}

/// The reply that a line is, if it is one.
fn reply_in(text: &str) -> Option<Value> {
    let reply: Value = serde_json::from_str(text).ok()?;
    (reply.get("ok").is_some() || reply.get("error").is_some()).then_some(reply)
}

impl Drop for Program {
    fn drop(&mut self) {
        self.end();
    }
}

#[cfg(test)]
mod tests {
    use super::*;

    #[test]
    fn replies_and_what_is_none() {
        let reply = |mut output: &[u8]| read_reply(&mut output, 8, |it| Some(it.to_owned()).filter(|it| it != "no\n"));
        let line = |it: &str| Ok(it.to_owned());
        let none = |it: &str| Err(Some(it.to_owned()));
        assert_eq!(reply(b"1234\n5678\n"), line("1234\n"));
        assert_eq!(reply(b"123456\n"), line("123456\n"));
        assert_eq!(reply(b"1234"), line("1234"));
        assert_eq!(reply(b""), Err(None));
        assert_eq!(reply(b"no\n"), none("no\n"));
        assert_eq!(reply(b"1\xff\n"), none("1\u{fffd}\n"));
        // Of a line that is too long no more is read.
        assert_eq!(reply(b"1234567\n"), none("1234567\n"));
        let mut endless = BufReader::new(std::io::repeat(b'x'));
        assert_eq!(read_reply(&mut endless, 8, |it| Some(it.to_owned())), none("xxxxxxxx"));
    }
}
