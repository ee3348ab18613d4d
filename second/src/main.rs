//! Reads a night file from standard input and prints its replay: the whole
//! file first, or with `--stream` piece by piece as it comes.

#![forbid(unsafe_code)]

use second::night;
use second::stream::Stream;
use std::ffi::OsString;
use std::fs::File;
use std::io::{self, Read, Write};
use std::os::unix::io::AsFd;
use std::process::exit;

/// The longest piece, and what is read at a time if nothing else is said.
const LONGEST_PIECE: usize = 65536;

fn main() {
    let arguments: Vec<OsString> = std::env::args_os().skip(1).collect();
    let words: Vec<Option<&str>> = arguments.iter().map(|word| word.to_str()).collect();
    let done = match words[..] {
        [] => whole(),
        [Some("--stream")] => in_pieces(LONGEST_PIECE),
        [Some("--stream"), size] => match size.and_then(piece_size) {
            Some(size) => in_pieces(size),
            None => usage(),
        },
        _ => usage(),
    };
    if let Err(message) = done {
        eprintln!("second-night: {}", message);
        exit(1);
    }
}

fn usage() -> ! {
    eprintln!("usage: second-night [--stream [N]], N bytes at most at a time, 1 to {}", LONGEST_PIECE);
    exit(2);
}

/// A number of 1 to 65536 in decimal digits.
fn piece_size(word: &str) -> Option<usize> {
    let decimal = word.bytes().all(|byte| byte.is_ascii_digit());
    let size = word.parse().ok().filter(|_| decimal)?;
    (1..=LONGEST_PIECE).contains(&size).then_some(size)
}

fn whole() -> Result<(), String> {
    // One byte more than the longest file is enough to notice a longer one.
    let mut file = Vec::with_capacity(night::MAX_FILE + 1);
    let limit = night::MAX_FILE as u64 + 1;
    io::stdin().lock().take(limit).read_to_end(&mut file).map_err(unread)?;
    print(&night::replay(&file))
}

/// One read is one piece; its lines are printed before the next read. The
/// input is read to its end also after a `bad` line.
fn in_pieces(size: usize) -> Result<(), String> {
    // Standard input itself would read ahead, into a buffer of its own.
    let mut input = File::from(io::stdin().as_fd().try_clone_to_owned().map_err(unread)?);
    let mut piece = vec![0; size];
    let mut stream = Stream::begin();
    let mut text = Vec::new();
    loop {
        // A read that fails counts as the end.
        let count = input.read(&mut piece).unwrap_or(0);
        if count == 0 {
            stream.finish(&mut text);
            return print(&text);
        }
        stream.feed(&piece[..count], &mut text);
        print(&text)?;
        text.clear();
    }
}

fn unread(error: io::Error) -> String {
    format!("cannot read standard input: {}", error)
}

/// Standard output is line buffered, but a write longer than its buffer that
/// ends in a newline goes out whole.
fn print(text: &[u8]) -> Result<(), String> {
    let mut out = io::stdout().lock();
    out.write_all(text)
        .and_then(|()| out.flush())
        .map_err(|error| format!("cannot write: {}", error))
}
