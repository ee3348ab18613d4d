//! The streaming form held against the whole file: however a file is cut, the
//! text is the same, and it is what a plain rule over all its bytes says.

use crate::rng::Rng;
use second::night;
use second::stream::Stream;

#[derive(Default)]
pub struct Pieces {
    pub files: u64,
    pub pieces: u64,
}

impl Pieces {
    /// Cuts a file anywhere, some pieces empty.
    pub fn file(&mut self, file: &[u8], rng: &mut Rng) -> Result<(), String> {
        let longest = rng.pick(&[3, 30, 900, 9000]);
        let mut pieces = Vec::new();
        let mut rest = file;
        while !rest.is_empty() {
            let (piece, others) = rest.split_at(rng.below(longest).min(rest.len()));
            pieces.push(piece);
            rest = others;
        }
        self.files += 1;
        self.pieces += pieces.len() as u64;
        let in_one = streamed(&[file]);
        if streamed(&pieces) != in_one {
            return Err("in pieces it prints something else".to_string());
        }
        match streamed_plainly(file) {
            Some(text) if text != in_one => Err("the plain rule prints something else".to_string()),
            _ => Ok(()),
        }
    }
}

fn streamed(pieces: &[&[u8]]) -> Vec<u8> {
    let mut stream = Stream::begin();
    let mut text = Vec::new();
    for piece in pieces {
        stream.feed(piece, &mut text);
    }
    stream.finish(&mut text);
    text
}

/// What the streaming form prints, by the replay of a file made of the good
/// leading records alone; none if these are more than such a file may have.
fn streamed_plainly(file: &[u8]) -> Option<Vec<u8>> {
    let malformed = b"bad 9\n".to_vec();
    let records_at = match file.get(2) {
        Some(1) => 784,
        Some(2..=4) => 912,
        _ => return Some(malformed),
    };
    if file.len() < records_at {
        return Some(malformed);
    }
    let (beginning, rest) = file.split_at(records_at);
    let of_records = |count: usize, records: &[u8]| {
        let mut made = [beginning, records].concat();
        made[4..8].copy_from_slice(&(count as u32).to_be_bytes());
        made
    };
    let is_good = |count, records: &[u8]| night::check(&of_records(count, records)).err() != Some(9);
    if !is_good(0, &[]) {
        return Some(malformed);
    }
    let counted = u32::from_be_bytes([file[4], file[5], file[6], file[7]]) as usize;
    let records = rest.chunks(night::RECORD_LEN).take(counted);
    let good = records.take_while(|record| is_good(1, record)).count();
    if good > night::MAX_RECORDS {
        return None;
    }
    let (good_records, others) = rest.split_at(good * night::RECORD_LEN);
    let mut text = night::replay(&of_records(good, good_records));
    if !text.starts_with(b"bad") && (good < counted || !others.is_empty()) {
        text.extend_from_slice(&malformed);
    }
    Some(text)
}
