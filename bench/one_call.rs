//! The twin of one_call.c, over the second program's library.

use std::env;
use std::fs;

use second::conversion::convert;
use second::right::enter;
use second::sound::is_sound;
use second::submission::submit;

fn call(what: &str, book: &mut [u8], message: &[u8]) -> (u32, usize, usize) {
    match what {
        "submit" => {
            let (v, _) = submit(book, message);
            (u32::from(v.number()), usize::from(v.series), usize::from(v.position.0))
        }
        "sound" => (u32::from(is_sound(book)), 0, 0),
        "convert" => (u32::from(convert(book)), 0, 0),
        "enter" => (u32::from(enter(book, message)), 0, 0),
        _ => (0, 0, 0),
    }
}

extern "C" {
    fn clock_gettime(clock: i32, time: *mut [i64; 2]) -> i32;
}

/// Processor time of this process, which other programs on the machine do not lengthen.
fn microseconds() -> f64 {
    let mut time = [0; 2];
    unsafe { clock_gettime(2, &mut time) };
    1e6 * time[0] as f64 + time[1] as f64 / 1e3
}

fn main() {
    let words: Vec<String> = env::args().collect();
    let many: usize = words[2].parse().unwrap();
    let read = fs::read(&words[3]).unwrap();
    let message = fs::read(&words[4]).unwrap();
    let mut book = read.clone();
    if many > 1 {
        let mut times: Vec<f64> = Vec::with_capacity(many);
        for _ in 0..many {
            book.copy_from_slice(&read);
            let start = microseconds();
            let answer = call(&words[1], &mut book, &message);
            times.push(microseconds() - start);
            assert!(answer.0 < 100); // the answer is looked at, so that no call is left out
        }
        times.sort_by(|a, b| a.partial_cmp(b).unwrap());
        println!("{:.1}", times[many / 2]);
        return;
    }
    let mut v = (0, 0, 0);
    if many == 1 {
        v = call(&words[1], &mut book, &message);
    }
    println!("{:02} {:03} {:03}", v.0, v.1, v.2);
    if let Some(after) = words.get(5) {
        fs::write(after, &book).unwrap();
    }
}
