//! baseline track | verdict: the same input and output as the proved programs.

use std::io::{Read, Write};

fn main() {
    let mut input = Vec::new();
    std::io::stdin().lock().read_to_end(&mut input).unwrap();
    let refusal = |(x, l): (u32, usize)| format!("REF{x:3}{l:5}\n").into_bytes();
    let out = match std::env::args().nth(1).as_deref() {
        Some("track") => match baseline::tracker(&input, 1024) {
            Ok((s, t)) => baseline::listing(&s, &t),
            Err(no) => refusal(no),
        },
        Some("verdict") => match baseline::verdict(&input, 1024) {
            Ok((c, p)) => format!("{}{c:3}{p:5}\n", if c % 2 == 0 { "YES" } else { " NO" }).into_bytes(),
            Err(no) => refusal(no),
        },
        _ => panic!("track or verdict"),
    };
    std::io::stdout().lock().write_all(&out).unwrap();
}
