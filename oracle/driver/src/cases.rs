//! The vectors of step texts (`cases*`, `stdout*`), each run through the published Rust and compared with its expected answer.

use crate::model::*;
use crate::{plain, rust};
use std::fs;
use std::path::Path;

fn unescape(s: &[u8]) -> Vec<u8> {
    let (mut out, mut at) = (Vec::new(), 0);
    while at < s.len() {
        if s[at] == b'\\' && at + 1 < s.len() {
            at += 1;
            out.push(match s[at] {
                b't' => b'\t',
                b'n' => b'\n',
                b'r' => b'\r',
                b'0' => 0,
                b'x' => {
                    at += 2;
                    u8::from_str_radix(std::str::from_utf8(&s[at - 1..=at]).unwrap(), 16).unwrap()
                }
                c => c,
            });
        } else {
            out.push(s[at]);
        }
        at += 1;
    }
    out
}

pub fn run(folder: &Path) -> Result<u64, String> {
    let (mut accepted, mut agree, mut refused, mut refused_agree, mut large, mut differ, mut by_plain) = (0, 0, 0, 0, 0, 0u64, 0);
    let mut n = 1;
    loop {
        let part = |stem: &str| folder.join(if n == 1 { stem.to_string() } else { format!("{stem}{n}") });
        let Ok(cases) = fs::read(part("cases")) else { break };
        let expected = fs::read(part("stdout")).map_err(|e| format!("{}: {e}", part("stdout").display()))?;
        let mut rest = expected.as_slice();
        for line in cases.split(|b| *b == b'\n').filter(|l| !l.is_empty() && l[0] != b'#') {
            let fields: Vec<&[u8]> = line.split(|b| *b == b'\t').collect();
            let (schema_text, steps) = (unescape(fields[1]), unescape(fields[2]));
            // the expected answer: `CASE -> refused N at P`, or `CASE -> `, the listing and an empty line
            rest = rest.strip_prefix(line).and_then(|r| r.strip_prefix(b" -> ")).ok_or("stdout is not that of the cases")?;
            let answer = if rest[0] == b'\n' {
                let end = rest.windows(2).skip(1).position(|w| w == b"\n\n").ok_or("a listing without end")? + 1;
                let listing = rest[1..=end].to_vec();
                rest = &rest[end + 2..];
                Ok(listing)
            } else {
                let end = rest.iter().position(|b| *b == b'\n').unwrap();
                let words: Vec<&str> = std::str::from_utf8(&rest[..end]).unwrap().split(' ').collect();
                rest = &rest[end + 1..];
                Err((words[1].parse::<u64>().unwrap(), words[3].parse::<u64>().unwrap()))
            };
            let items = plain::read_schema(&schema_text).map_err(|r| format!("a case's schema is refused at {}", r.place))?;
            let schema = rust::Schema::of(&items);
            let request = request(10, 500, 20);
            let text_of = |rows: Vec<u64>| {
                let mut out = Vec::new();
                plain::write(&rows, &mut out);
                out
            };
            let same = |got: &Answer<Vec<u8>>| match (got, &answer) {
                (Ok(x), Ok(y)) => x == y,
                (Err(r), Err((n, p))) => r.number == *n && r.place == *p,
                _ => false,
            };
            by_plain += same(&plain::analyse(&schema.plain, request, &steps).map(text_of)) as u64;
            accepted += answer.is_ok() as u64;
            refused += answer.is_err() as u64;
            match rust::steps(&schema, &steps) {
                rust::Ran::TooLarge => large += 1,
                rust::Ran::Answer(got) => {
                    let got = got.map(|t| text_of(rows_of_trie(request, &t)));
                    if same(&got) {
                        agree += answer.is_ok() as u64;
                        refused_agree += answer.is_err() as u64;
                    } else {
                        differ += 1;
                        println!("differs: {}\n  expected {answer:?}\n  the Rust {got:?}", String::from_utf8_lossy(line));
                    }
                }
            }
        }
        n += 1;
    }
    println!("cases: {} files; accepted {accepted}, the Rust's listing agrees in {agree}", n - 1);
    println!("       refused {refused}, the Rust (panics as 7 and 8, our limits on its results) agrees in {refused_agree}, too large for it {large}");
    println!("       the plain side agrees in {by_plain}; differences {differ}");
    Ok(differ)
}
