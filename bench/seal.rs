// Seals the same hall in plain Rust, to time the proved program beside it: seal PLACES SIDE.

mod plain;
mod words;

use plain::{Guard, Hall};

fn mixed(sum: u64, answer: u64) -> u64 {
    sum.wrapping_mul(31).wrapping_add(answer)
}

fn told(result: Result<(), u8>) -> u64 {
    result.err().map_or(0, u64::from)
}

fn enabled_at(guard: &mut Guard, x: u16, y: u16) -> u64 {
    let mut sum = told(guard.report(0, x, y));
    for role in 0..64 {
        sum = mixed(sum, u64::from(guard.enabled(0, role) == Ok(true)));
    }
    sum
}

fn main() {
    let args: Vec<String> = std::env::args().skip(1).collect();
    let places: u32 = args[1].parse().expect("a number of places");
    let side: u32 = args[2].parse().expect("a side");
    let hall = Hall::read(&words::hall_words(places, side)).expect("a hall");
    let mut guard = Guard::new(hall);
    assert!(guard.seal(&words::policy_words(places)), "the policy is not sealed");
    let _ = guard.open(0, 0);
    let mut sum = (0..64).filter(|&role| guard.activate(0, 0, role).is_ok()).count() as u64;
    for k in 0..8 {
        let x = side / 4 * (1 + 2 * (k % 2)) % 256;
        let y = (side / 4 * (1 + 2 * (k / 2 % 2)) + k / 4 * (side / 4 / 3)) % 256;
        sum = mixed(sum, enabled_at(&mut guard, x as u16, y as u16));
    }
    println!("sealed {places} {side} sum {sum}");
}
