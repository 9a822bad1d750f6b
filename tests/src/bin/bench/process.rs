//! Whole processes, from file to file, with an argument.

use std::fs::{self, File};
use std::path::Path;
use std::process::Command;
use std::thread;
use std::time::{Duration, Instant};

fn ready(program: &Path, argument: &str, input: &Path, output: &Path) -> Command {
    let mut command = Command::new(program);
    command
        .arg(argument)
        .stdin(File::open(input).expect("the input"))
        .stdout(File::create(output).expect("a file for the output"));
    command
}

pub fn time(program: &Path, argument: &str, input: &Path, output: &Path) -> Duration {
    let mut command = ready(program, argument, input, output);
    let start = Instant::now();
    let status = command.status().expect("the program runs");
    let time = start.elapsed();
    assert!(status.success());
    time
}

/// The most memory that the program had resident, in KiB: a high-water mark, so that the last look is the highest.
pub fn memory(program: &Path, argument: &str, input: &Path, output: &Path) -> u64 {
    let mut child = ready(program, argument, input, output).spawn().expect("the program runs");
    let mut most = 0;
    while child.try_wait().expect("its status").is_none() {
        let status = fs::read_to_string(format!("/proc/{}/status", child.id())).unwrap_or_default();
        let mark = status.lines().find_map(|line| line.strip_prefix("VmHWM:"));
        most = mark.and_then(|rest| rest.trim().trim_end_matches(" kB").parse().ok()).unwrap_or(most);
        thread::sleep(Duration::from_millis(1));
    }
    most
}
