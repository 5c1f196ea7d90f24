//! read TEXT..: for each file the number that the reader answers, and the best of 21 calls in ms.
#[path = "cpu.rs"]
mod cpu;

use cpu::Instant;

extern "C" {
    fn reader_bench_read(text: *const u8, length: usize, work: *mut u32, words: usize) -> u32;
}

fn read(text: &[u8], work: &mut [u32]) -> u32 {
    unsafe { reader_bench_read(text.as_ptr(), text.len(), work.as_mut_ptr(), work.len()) }
}

fn is_white(b: &u8) -> bool {
    matches!(b, 9 | 10 | 12 | 13 | 32)
}

fn main() {
    for path in std::env::args().skip(1) {
        let text = std::fs::read(&path).expect("a text");
        let tokens = text.split(is_white).filter(|t| !t.is_empty()).count();
        let mut work = vec![7u32; 16 * (tokens + 1)];
        let number = read(&text, &mut work);
        let mut best = f64::MAX;
        for _ in 0..21 {
            let start = Instant::now();
            read(&text, &mut work);
            best = best.min(start.elapsed().as_secs_f64() * 1000.0);
        }
        println!("{path} number {number} best {best:.3}");
    }
}
