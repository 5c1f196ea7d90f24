//! `names TEXT ROUNDS` prints the best times in ms of reading, and of reading and naming, over a work area that was touched before.

#[path = "cpu.rs"]
mod cpu;

use cpu::Instant;
use std::hint::black_box;

extern "C" {
    fn reader_bench_read(text: *const u8, text_length: usize, work: *mut u32, work_length: usize) -> u32;
    fn naming_bench_name(text: *const u8, text_length: usize, work: *mut u32, work_length: usize);
}

fn milliseconds(run: impl FnOnce()) -> f64 {
    let begin = Instant::now();
    run();
    begin.elapsed().as_secs_f64() * 1e3
}

fn main() {
    let args: Vec<String> = std::env::args().collect();
    let text = std::fs::read(&args[1]).expect("a file");
    let tokens = text.split(|b| b" \n\t\r\x0C".contains(b)).filter(|t| !t.is_empty()).count();
    let mut work = vec![7u32; 16 * (tokens + 1)];
    let mut best = [f64::MAX; 2];
    for _ in 0..args[2].parse().expect("ROUNDS is a number") {
        let (t, w) = (black_box(&text[..]), black_box(&mut work[..]));
        // SAFETY: both read the text, write the work area within its length, and keep no pointer.
        let read = milliseconds(|| _ = unsafe { reader_bench_read(t.as_ptr(), t.len(), w.as_mut_ptr(), w.len()) });
        let named = milliseconds(|| unsafe { naming_bench_name(t.as_ptr(), t.len(), w.as_mut_ptr(), w.len()) });
        best = [best[0].min(read), best[1].min(named)];
    }
    println!("read {:.3} named {:.3}", best[0], best[1]);
}
