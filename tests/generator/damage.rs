// Good streams made bad: by bits, by length, by order, by names and tails.

use crate::random::Random;
use crate::write::*;

pub fn damaged(r: &mut Random, doc: &Doc) -> Vec<u8> {
    let mut stream = doc.stream();
    match r.below(12) {
        // Bits flipped, the check left as it was.
        0 => flip(r, &mut stream),
        // The same, and the check made right.
        1..=3 => {
            flip(r, &mut stream);
            mend(&mut stream);
        }
        4 => stream.truncate(r.below(stream.len())),
        5 => stream.truncate(r.below(stream.len() / BLOCK + 1) * BLOCK),
        6 => {
            let mut payload = payload_of(&stream);
            payload.truncate(r.below(payload.len()));
            stream = blocks(&payload);
        }
        7 => {
            let mut records = doc.records();
            let (a, b) = (r.below(records.len()), r.below(records.len()));
            records.swap(a, b);
            stream = ended(records);
        }
        8 => {
            let mut records = doc.records();
            let (a, b) = (r.below(records.len()), r.below(records.len()));
            let copy = records[a].clone();
            records.insert(b, copy);
            stream = ended(records);
        }
        9 => {
            let mut records = doc.records();
            records.remove(r.below(records.len()));
            stream = ended(records);
        }
        10 => {
            let byte = 1 + r.below(255) as u8;
            let used = doc.payload().len();
            let mut payload = payload_of(&stream);
            payload.resize(payload.len() + r.below(2) * PAYLOAD, 0);
            let at = used + r.below((payload.len() - used).max(1));
            if at < payload.len() {
                payload[at] = byte;
            }
            stream = blocks(&payload);
        }
        _ => stream = one_byte(r, doc),
    }
    stream
}

fn ended(mut records: Vec<Vec<u8>>) -> Vec<u8> {
    records.push(vec![0]);
    blocks(&records.concat())
}

fn flip(r: &mut Random, stream: &mut [u8]) {
    for _ in 0..=r.below(3) {
        let at = r.below(stream.len());
        stream[at] ^= 1 << r.below(8);
    }
}

/// One byte near the start of a record: a tag, an option, a length, a byte of
/// a name, a flag.
fn one_byte(r: &mut Random, doc: &Doc) -> Vec<u8> {
    let mut records = doc.records();
    let record = r.below(records.len());
    let at = r.below(records[record].len().min(8));
    records[record][at] = r.pick(&[0, 1, 2, 3, 5, 9, 31, 32, 33, 126, 127, 200, 255]);
    ended(records)
}
