//! A bench as a process.

use crate::{program, said, told};
use std::io::{BufRead, BufReader, Read};
use std::net::SocketAddr;
use std::path::{Path, PathBuf};
use std::process::{Child, Command, Stdio};

pub struct Bench {
    child: Child,
    output: BufReader<std::process::ChildStdout>,
    pub address: SocketAddr,
    pub recording: PathBuf,
}

impl Bench {
    /// Starts a bench on a free port.
    pub fn start(image: &Path, recording: &Path, words: &[&str]) -> Bench {
        let mut child = Command::new(program("bench"))
            .args(["--port", "0", "--image"])
            .arg(image)
            .arg("--record")
            .arg(recording)
            .args(words)
            .stdout(Stdio::piped())
            .stderr(Stdio::null())
            .spawn()
            .unwrap();
        let mut output = BufReader::new(child.stdout.take().unwrap());
        let mut line = String::new();
        output.read_line(&mut line).unwrap();
        let address = line.trim().rsplit(' ').next().unwrap();
        Bench {
            child,
            output,
            address: address
                .parse()
                .unwrap_or_else(|_| panic!("bench said '{line}'")),
            recording: recording.to_path_buf(),
        }
    }

    /// Ends it by a signal, as Ctrl-C does, and gives what it said.
    pub fn end(self) -> String {
        self.signal("INT")
    }

    pub fn signal(mut self, signal: &str) -> String {
        let ended = Command::new("kill")
            .args([&format!("-{signal}"), &self.child.id().to_string()])
            .output()
            .unwrap();
        assert!(ended.status.success(), "{}{}", told(&ended), said(&ended));
        let mut text = String::new();
        self.output.read_to_string(&mut text).unwrap();
        let status = self.child.wait().unwrap();
        assert!(status.success(), "bench ended with {status}: {text}");
        text
    }

    /// Ends it at once, whatever it is doing.
    pub fn kill(mut self) {
        self.child.kill().unwrap();
        self.child.wait().unwrap();
    }

    /// The recording's bytes so far.
    pub fn recorded(&self) -> Vec<u8> {
        std::fs::read(&self.recording).unwrap()
    }
}

impl Drop for Bench {
    fn drop(&mut self) {
        // It has ended already unless a trial failed.
        let _ = self.child.kill();
        let _ = self.child.wait();
    }
}
