//! The converter beside a plain copy of the same bytes: a stream is repeated up to 100,000,000 bytes, copied and converted in turn.
//! Prints the bytes, the best time of each in milliseconds, and their ratio.
#[path = "cpu.rs"]
mod cpu;

use cpu::Instant;
use std::hint::black_box;

const MOST: usize = 100_000_000;
const ROUNDS: usize = 7;

#[link(name = "capi", kind = "static")]
extern "C" {
    fn janorembe_convert(stream: *const u8, length: usize, out: *mut u8, room: usize, answer: *mut u64) -> u32;
}

fn main() {
    let path = std::env::args().nth(1).expect("a file with a frame stream");
    let one = std::fs::read(path).expect("the stream");
    let stream = one.repeat(MOST / one.len());
    let (mut out, mut answer) = (vec![1; stream.len()], [0; 2]);
    let (mut copy, mut convert) = (f64::MAX, f64::MAX);
    for _ in 0..ROUNDS {
        let start = Instant::now();
        out.copy_from_slice(black_box(&stream));
        black_box(&mut out);
        copy = copy.min(start.elapsed().as_secs_f64() * 1e3);
        let start = Instant::now();
        // SAFETY: the library reads `stream`, writes `out` within its length and the two words of `answer`, and keeps no pointer.
        let number = unsafe {
            janorembe_convert(stream.as_ptr(), stream.len(), out.as_mut_ptr(), out.len(), answer.as_mut_ptr())
        };
        black_box(&mut out);
        convert = convert.min(start.elapsed().as_secs_f64() * 1e3);
        assert_eq!((number, answer[1]), (0, stream.len() as u64), "the stream is converted");
    }
    println!("{} {copy:.1} {convert:.1} {:.2}", stream.len(), convert / copy);
}
