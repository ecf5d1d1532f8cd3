//! Measures `kdl` 6.7.1 and `toml_edit` on texts of KDL, with the columns of the table of crate `bench`.
//!
//! The arguments are files of KDL. `toml_edit` is given what `toml FILE` writes: TOML with the same data and comments.
//! `once kdl FILE` and `once toml FILE` parse the file's text once, for a measure of memory around them; `cat kdl FILE`
//! and `cat toml FILE` also print it.

mod toml;

use kdl::KdlDocument;
use std::fmt::Display;
use std::hint::black_box;
use std::process::exit;
use std::time::{Duration, Instant};
use std::{env, fs, thread};
use toml_edit::Document;

/// How many nodes are looked up in a turn, at most.
const SOUGHT: usize = 64;

/// The `kdl` parser goes down blocks and comments by recursion.
const STACK: usize = 4 << 30;

/// The text of a file.
fn read(name: &str) -> String {
    fs::read_to_string(name).unwrap_or_else(|error| fail(&format!("{name}: {error}")))
}

fn fail(message: &str) -> ! {
    eprintln!("{message}");
    exit(1)
}

fn kdl_of(text: &str) -> KdlDocument {
    KdlDocument::parse_v2(text).unwrap_or_else(|error| fail(&format!("no KDL: {error:?}")))
}

fn toml_of(text: &str) -> Document {
    text.parse().unwrap_or_else(|error| fail(&format!("no TOML: {error}")))
}

/// The least time in several turns, each of which takes its own.
fn least(bytes: usize, mut turn: impl FnMut() -> Duration) -> Duration {
    let turns = (20_000_000 / bytes.max(1)).clamp(3, 100);
    (0..turns).map(|_| turn()).min().unwrap_or_default()
}

/// How long the call takes; what it answers is dropped afterwards.
fn time<T>(call: impl FnOnce() -> T) -> Duration {
    let start = Instant::now();
    let answer = black_box(call());
    let time = start.elapsed();
    drop(answer);
    time
}

/// Writes a row: the speeds, and what a look-up takes.
fn row(peer: &str, name: &str, bytes: usize, times: &[Duration], lookups: &[Duration]) {
    print!("{peer:<10}{name:<24}{bytes:>9}");
    for time in times {
        print!("{:>9.1}", bytes as f64 / time.as_secs_f64() / 1e6);
    }
    for time in lookups {
        print!("{:>9}", time.as_nanos());
    }
    println!();
}

/// How long parsing the text, parsing it and dropping the document, and printing the document take.
fn basic_times<D: Display>(text: &str, document: &D, parse: impl Fn(&str) -> D) -> Vec<Duration> {
    let bytes = text.len();
    vec![
        least(bytes, || time(|| parse(text))),
        least(bytes, || time(|| drop(black_box(parse(text))))),
        least(bytes, || time(|| document.to_string())),
    ]
}

fn measure_kdl(name: &str, text: &str) {
    let bytes = text.len();
    let document = kdl_of(text);
    let mut times = basic_times(text, &document, kdl_of);
    times.extend([
        least(bytes, || {
            let mut copy = document.clone();
            time(|| copy.autoformat_no_comments())
        }),
        least(bytes, || {
            let mut copy = document.clone();
            time(|| copy.autoformat())
        }),
        least(bytes, || time(|| document.clone())),
    ]);
    let step = (document.nodes().len() / SOUGHT).max(1);
    let nodes: Vec<_> = document.nodes().iter().step_by(step).collect();
    let of_nodes = least(bytes, || {
        time(|| nodes.iter().filter(|node| document.get(node.name().value()).is_some()).count())
    });
    let named: Vec<_> = nodes
        .iter()
        .filter_map(|node| Some((node, node.entries().iter().find_map(|entry| entry.name())?.value())))
        .collect();
    let of_properties =
        least(bytes, || time(|| named.iter().filter(|(node, name)| node.get(*name).is_some()).count()));
    let lookups = [of_nodes / nodes.len().max(1) as u32, of_properties / named.len().max(1) as u32];
    row("kdl", name, bytes, &times, &lookups);
}

fn measure_toml(name: &str, text: &str) {
    let times = basic_times(text, &toml_of(text), toml_of);
    row("toml_edit", name, text.len(), &times, &[]);
}

fn run() {
    let words: Vec<String> = env::args().skip(1).collect();
    let words: Vec<&str> = words.iter().map(String::as_str).collect();
    match words[..] {
        [] => fail("peers FILE.. | toml FILE | once kdl|toml FILE | cat kdl|toml FILE"),
        ["toml", file] => print!("{}", toml::of_document(&kdl_of(&read(file)))),
        ["once", "kdl", file] => drop(black_box(kdl_of(&read(file)))),
        ["once", "toml", file] => drop(black_box(toml_of(&read(file)))),
        ["cat", "kdl", file] => print!("{}", kdl_of(&read(file))),
        ["cat", "toml", file] => print!("{}", toml_of(&read(file))),
        _ => {
            println!("MB/s of the text; nanoseconds for a look-up");
            print!("{:<10}{:<24}{:>9}", "peer", "text", "bytes");
            println!("    parse and drop    print    strip      fmt    clone  node ns  prop ns");
            for file in words {
                let text = read(file);
                measure_kdl(file, &text);
                measure_toml(file, &toml::of_document(&kdl_of(&text)));
            }
        }
    }
}

fn main() {
    let thread = thread::Builder::new().stack_size(STACK).spawn(run);
    if thread.is_err() || thread.is_ok_and(|thread| thread.join().is_err()) {
        exit(1)
    }
}
