// The same work as the program linebench, on a plain VecDeque<Vec<u8>>: what a line costs is read beside it.
use std::collections::VecDeque;
use std::env;

const LONGEST: usize = 512;
const CELLS: usize = 32;
const WAITING: u32 = 8;

fn put(line: &mut VecDeque<Vec<u8>>, frame: &[u8]) -> Result<(), ()> {
    if frame.is_empty() || frame.len() > LONGEST || line.len() >= CELLS {
        return Err(());
    }
    line.push_back(frame.to_vec());
    Ok(())
}

fn take(line: &mut VecDeque<Vec<u8>>, out: &mut [u8]) -> Result<Option<usize>, ()> {
    if out.len() < LONGEST {
        return Err(());
    }
    let Some(frame) = line.pop_front() else {
        return Ok(None);
    };
    out[..frame.len()].copy_from_slice(&frame);
    Ok(Some(frame.len()))
}

fn through(line: &mut VecDeque<Vec<u8>>, frame: &mut [u8], out: &mut [u8], count: u32) -> u32 {
    let mut sum: u32 = 0;
    for i in 0..count {
        frame[0] = (i % 256) as u8;
        let _ = put(line, frame);
        if i >= WAITING {
            if let Ok(Some(_)) = take(line, out) {
                sum = sum.wrapping_add(u32::from(out[0]));
            }
        }
    }
    sum
}

fn main() {
    let words: Vec<String> = env::args().collect();
    let length: usize = words[1].parse().unwrap();
    let count: u32 = words[2].parse().unwrap();
    let mut frame = [0; LONGEST];
    let mut out = [0; LONGEST];
    let mut line = VecDeque::with_capacity(CELLS);
    let sum = through(&mut line, &mut frame[..length], &mut out, count);
    println!("deque: {count} frames of {length} octets, sum {sum}");
}
