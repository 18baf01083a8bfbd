//! The program of document 01 over the plain Rust implementation. Never shipped: it lets the program's tests be tried without
//! the proved one.

use std::io::{self, Read};

const INPUT: usize = 8_192;

fn main() -> io::Result<()> {
    let (mut work, mut list) = ([0; 10_248], [0; 400]);
    let mut input = Vec::new();
    io::stdin().take(INPUT as u64 + 1).read_to_end(&mut input)?;
    if input.len() > INPUT {
        println!("R 19 {INPUT}");
        return Ok(());
    }
    let answer = native::make(&input, &mut work, &mut list);
    if answer.number != 0 {
        println!("R {} {}", answer.number, answer.place);
        return Ok(());
    }
    println!("{} {} {} {} {}", answer.p, answer.x, answer.y, answer.t, answer.w);
    for (page, end) in (1..=answer.p).zip(list.chunks_exact(native::page_words(&input))) {
        let counts: Vec<String> = end.iter().map(u32::to_string).collect();
        println!("{page} {}", counts.join(" "));
    }
    Ok(())
}
