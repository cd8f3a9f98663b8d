// The instructions of each call, counted by callgrind while the same program makes each call once.
// Rests on lines.rs, and on valgrind where there is one.

use std::collections::HashMap;
use std::fs;
use std::hint::black_box;
use std::process::Command;

use crate::lines::{Answer, Call, Line};

/// The word that asks this program for the calls alone.
pub const COUNTED: &str = "--counted";

/// The instructions of one call.
#[derive(Clone, Default)]
pub struct Count {
    pub whole: f64,
    /// Of each function called in it, with all that it calls.
    within: HashMap<String, f64>,
}

impl Count {
    pub fn within(&self, function: &str) -> f64 {
        *self
            .within
            .get(function)
            .unwrap_or_else(|| panic!("{function} isn't a function of its own"))
    }
}

/// Callgrind writes what was counted between the entry of this function and its end.
#[no_mangle]
#[inline(never)]
fn counted(call: &mut Call) -> Answer {
    black_box(call())
}

pub fn make(lines: &mut [Line]) {
    for line in lines {
        line.agree(counted);
    }
}

/// Keeps the repeated instructions from clearing and copying memory, each of which would be counted
/// once a byte.
const PLAIN_COPIES: (&str, &str) = ("GLIBC_TUNABLES", "glibc.cpu.hwcaps=-ERMS");

/// Both counts of each line that is measured under the name; none where there is no valgrind.
pub fn counts(name: Option<&str>) -> Option<Vec<[Count; 2]>> {
    let program = std::env::current_exe().expect("a path of this program");
    let written = program.with_extension("counts");
    // What an earlier run left would be added to.
    let _ = fs::remove_file(&written);
    let status = Command::new("valgrind")
        .envs([PLAIN_COPIES])
        .args(["-q", "--tool=callgrind", "--combine-dumps=yes"])
        .args(["--compress-strings=no", "--compress-pos=no"])
        .args(["--zero-before=counted", "--dump-after=counted"])
        .arg(format!("--callgrind-out-file={}", written.display()))
        .arg(program)
        .arg(COUNTED)
        .args(name)
        .status()
        .ok()?;
    assert!(status.success(), "the counted calls failed");
    let text = fs::read_to_string(&written).expect("the counts as text");
    let counts: Vec<Count> = parts(&text).map(count).collect();
    Some(counts.as_chunks().0.to_vec())
}

/// One part a call; the last is what came after all calls.
fn parts(text: &str) -> impl Iterator<Item = &str> {
    let parts: Vec<&str> = text.split("\npart: ").skip(1).collect();
    let calls = parts.len() - 1;
    parts.into_iter().take(calls)
}

/// `cfn=` names the function called, a line that begins with `calls=` follows, and on the line after
/// that the second number is what the call cost.
fn count(part: &str) -> Count {
    let mut count = Count::default();
    let mut function = "";
    let mut lines = part.lines();
    while let Some(line) = lines.next() {
        if let Some(named) = line.strip_prefix("cfn=") {
            function = named;
        } else if line.starts_with("calls=") {
            let cost = lines.next().and_then(|line| line.split(' ').nth(1));
            *count.within.entry(function.to_string()).or_default() += number(cost);
        } else if let Some(whole) = line.strip_prefix("summary: ") {
            count.whole = number(Some(whole));
        }
    }
    count
}

fn number(text: Option<&str>) -> f64 {
    let number = text.and_then(|text| text.parse().ok());
    number.expect("a number of instructions")
}
