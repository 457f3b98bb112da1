//! Four streams of the largest size, each of one kind of record, and how fast their refusals are decided.

use std::time::Instant;

unsafe extern "C" {
    fn scene_refusal(stream: *const u8, length: usize) -> u32;
}

const BLOCKS: usize = 65536;
const PAYLOAD: usize = BLOCKS * 508;

/// `rescale` 1, then `record(i)` for i from 0 on as long as they fit, then zeros.
fn payload(record: impl Fn(usize) -> Vec<u8>) -> Vec<u8> {
    let mut bytes = vec![1];
    bytes.extend(1f64.to_le_bytes());
    for i in 0.. {
        let next = record(i);
        if next.is_empty() || bytes.len() + next.len() >= PAYLOAD {
            break;
        }
        bytes.extend(next);
    }
    bytes.resize(PAYLOAD, 0);
    bytes
}

fn stream(payload: &[u8]) -> Vec<u8> {
    let mut bytes = Vec::with_capacity(BLOCKS * 512);
    for (i, block) in payload.chunks(508).enumerate() {
        let words = block
            .chunks(4)
            .map(|w| u32::from_le_bytes(w.try_into().unwrap()));
        let check = words.fold(i as u32, u32::wrapping_add);
        bytes.extend(block);
        bytes.extend(check.to_le_bytes());
    }
    bytes
}

/// A line with no label, no measures and no span.
fn item() -> Vec<u8> {
    let mut bytes = vec![6, 4];
    bytes.resize(13, 0);
    bytes
}

/// A line with 60,000 points.
fn long_line() -> Vec<u8> {
    let mut bytes = item();
    bytes.extend([7, 0]);
    bytes.extend(60000u16.to_le_bytes());
    for i in 0..120000 {
        bytes.extend((i as f64 / 7.0).to_le_bytes());
    }
    bytes
}

/// The i-th variable, of five bytes: names rise with i.
fn variable(i: usize) -> Vec<u8> {
    let mut bytes = vec![4, 5];
    bytes.extend((0..5).rev().map(|d| 33 + (i / 94usize.pow(d) % 94) as u8));
    bytes.extend((i as f64).to_le_bytes());
    bytes
}

fn main() {
    let rounds: usize = std::env::args()
        .nth(1)
        .and_then(|n| n.parse().ok())
        .unwrap_or(11);
    let kinds = [
        ("small items", payload(|_| item())),
        ("long lines", payload(|_| long_line())),
        ("variables", payload(variable)),
        ("zeros behind the end", payload(|_| Vec::new())),
    ];
    println!(
        "{:24}{:>10}{:>10}   MB/s of {} MiB, {rounds} rounds",
        "",
        "best",
        "median",
        BLOCKS * 512 >> 20
    );
    for (name, payload) in kinds {
        let stream = stream(&payload);
        let mut rates: Vec<f64> = (0..rounds)
            .map(|_| {
                let start = Instant::now();
                let refusal = unsafe { scene_refusal(stream.as_ptr(), stream.len()) };
                let seconds = start.elapsed().as_secs_f64();
                assert_eq!(refusal, 0, "{name}");
                stream.len() as f64 / seconds / 1e6
            })
            .collect();
        rates.sort_by(f64::total_cmp);
        println!(
            "{name:24}{:10.0}{:10.0}",
            rates[rounds - 1],
            rates[rounds / 2]
        );
    }
}
