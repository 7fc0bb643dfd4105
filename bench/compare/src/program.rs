//! The program under test: one start per file.

use std::env;
use std::fs;
use std::io::{self, Read};
use std::path::{Path, PathBuf};
use std::process::{self, Child, Command, ExitStatus, Stdio};
use std::sync::mpsc;
use std::thread;
use std::time::{Duration, Instant};

/// A run has at most 512 steps, so a program that takes longer hangs.
const PATIENCE: Duration = Duration::from_secs(10);
/// Far more than any output; a program that never stops printing is cut off.
const MOST_OUTPUT: u64 = 1 << 20;

/// What a program prints for the bytes of a file, or why it cannot be started.
pub type Prints<'a> = dyn Fn(&[u8]) -> Result<String, String> + 'a;

/// The program, and the folder its files are written to.
pub struct Program {
    path: PathBuf,
    folder: PathBuf,
}

impl Program {
    /// Fails where the program is no file or the folder cannot be made.
    pub fn new(path: &Path) -> Result<Program, String> {
        // A bare name in the current folder would be looked for elsewhere.
        let path = fs::canonicalize(path)
            .map_err(|error| format!("cannot find {}: {error}", path.display()))?;
        let folder = own_folder().map_err(|error| format!("no temporary folder: {error}"))?;
        Ok(Program { path, folder })
    }

    /// What the program prints for a file. An end other than by itself is told
    /// in a line of its own, so that it differs from every expected output.
    pub fn output(&self, bytes: &[u8]) -> Result<String, String> {
        let file = self.folder.join("file.run");
        fs::write(&file, bytes)
            .map_err(|error| format!("cannot write {}: {error}", file.display()))?;
        let child = Command::new(&self.path)
            .arg(&file)
            .stdin(Stdio::null())
            .stdout(Stdio::piped())
            .stderr(Stdio::null())
            .spawn()
            .map_err(|error| format!("cannot start {}: {error}", self.path.display()))?;
        Ok(watched(child))
    }
}

impl Drop for Program {
    fn drop(&mut self) {
        let _ = fs::remove_dir_all(&self.folder);
    }
}

fn own_folder() -> io::Result<PathBuf> {
    let mut tries = 0;
    loop {
        let name = format!("sdhost-compare-{}-{tries}", process::id());
        let folder = env::temp_dir().join(name);
        match fs::create_dir(&folder) {
            Err(error) if error.kind() == io::ErrorKind::AlreadyExists => tries += 1,
            made => return made.map(|()| folder),
        }
    }
}

// Reading is left to a thread, so that a program that hangs can be ended.
fn watched(mut child: Child) -> String {
    let deadline = Instant::now() + PATIENCE;
    let (sender, printed) = mpsc::channel();
    let stdout = child.stdout.take();
    thread::spawn(move || {
        let mut bytes = Vec::new();
        if let Some(stdout) = stdout {
            let _ = stdout.take(MOST_OUTPUT).read_to_end(&mut bytes);
        }
        let _ = sender.send(bytes);
    });
    let Ok(bytes) = printed.recv_timeout(PATIENCE) else {
        end(&mut child);
        return "(the program hangs)\n".to_string();
    };
    let mut text = String::from_utf8_lossy(&bytes).into_owned();
    match ended(&mut child, deadline) {
        Some(status) if status.code().is_some() => {}
        Some(status) => text.push_str(&format!("(the program ended by {status})\n")),
        None => text.push_str("(the program does not end)\n"),
    }
    text
}

// Its output is at its end, so it should end at once.
fn ended(child: &mut Child, deadline: Instant) -> Option<ExitStatus> {
    let mut pause = Duration::from_micros(20);
    while Instant::now() < deadline {
        if let Ok(Some(status)) = child.try_wait() {
            return Some(status);
        }
        thread::sleep(pause);
        pause = (pause * 2).min(Duration::from_millis(10));
    }
    end(child);
    None
}

fn end(child: &mut Child) {
    let _ = child.kill();
    let _ = child.wait();
}
