// The floor of the decimal measurement: the same steps on plain i128 values.
use std::io::Write;

const UNIT: i128 = 1_000_000_000_000_000_000;
const TEXTS: [&str; 8] = [
    "1234560000000000000000", "-190000000000000000", "99999950000000000000000", "7000000000000000000",
    "-12345678123456000000000000", "1000000000000", "3333333000000000000", "-100000000000000000000",
];

fn weight(z: i128) -> u64 {
    if z < 0 { 1 } else { 2 }
}

fn one_call(call: &str, numbers: &[i128; 8], step: u32) -> u64 {
    let x = numbers[(step % 8) as usize];
    let y = numbers[(step / 8 % 8) as usize];
    match call {
        "add" => weight(x.wrapping_add(y)),
        "mul" => weight(x.wrapping_mul(y)),
        "div" => weight(x / (y / UNIT + 1).max(1)),
        "read" => u64::from(TEXTS[(step % 8) as usize].parse::<i128>().is_ok()),
        "print" => {
            let mut buf = [0u8; 40];
            let mut rest = &mut buf[..];
            write!(rest, "{x}").unwrap();
            let len = 40 - rest.len();
            len as u64 + u64::from(buf[len / 2])
        }
        _ => 0,
    }
}

fn main() {
    let words: Vec<String> = std::env::args().skip(1).collect();
    let count: u32 = words[1].parse().unwrap();
    let mut numbers = [0i128; 8];
    for (slot, text) in numbers.iter_mut().zip(TEXTS) {
        *slot = text.parse().unwrap();
    }
    let mut sum = 0u64;
    for step in 0..count {
        sum = sum.wrapping_add(one_call(std::hint::black_box(&words[0]), std::hint::black_box(&numbers), step));
    }
    println!("{sum}");
}
