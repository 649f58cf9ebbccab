//! An input that cannot be read: a line on standard error, and nothing on standard output.

use crate::bench::Bench;
use std::process::{Command, Output};

/// A program with standard input from somewhere, in the shell's words.
fn run(b: &Bench, program: &str, input: &str) -> Output {
    let path = b.programs.join(program);
    Command::new("sh").args(["-c", &format!("exec \"$0\" {input}")]).arg(path).output().expect("a shell")
}

fn is_line(text: &[u8]) -> bool {
    text.len() > 1 && text.iter().position(|x| *x == b'\n') == Some(text.len() - 1)
}

pub fn run_all(b: &mut Bench) {
    for program in ["track", "verdict", "rewrite"] {
        for (what, input) in [("a folder", "</"), ("a closed input", "<&-")] {
            let out = run(b, program, input);
            let good = out.stdout.is_empty() && is_line(&out.stderr);
            b.expect(&format!("limit: {what} as input"), good, format!("{program} {input}: {out:?}").as_bytes());
        }
    }
}
