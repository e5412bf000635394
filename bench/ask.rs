// The same rounds of reports and questions in plain Rust, to time the proved program beside it: report N, ask N or roles N.

mod plain;
mod words;

use plain::{Guard, Hall};

struct Dice {
    state: u32,
}

impl Dice {
    fn byte(&mut self) -> u16 {
        self.state = self.state.wrapping_mul(1_664_525).wrapping_add(1_013_904_223);
        (self.state >> 24) as u16
    }
}

fn mixed(sum: u64, answer: u64) -> u64 {
    sum.wrapping_mul(31).wrapping_add(answer)
}

fn sign_in(guard: &mut Guard) -> u64 {
    let mut active = 0;
    for badge in 0..128 {
        let session = badge % 4;
        let _ = guard.open(badge, session);
        for role in 0..64 {
            if guard.activate(badge, session, role).is_ok() {
                active += 1;
            }
        }
    }
    active
}

fn amid(byte: u16) -> u16 {
    32 + byte % 64 + byte / 128 * 128
}

fn hear(guard: &mut Guard, dice: &mut Dice) -> u16 {
    let badge = dice.byte() % 128;
    let x = amid(dice.byte());
    let y = amid(dice.byte());
    let _ = guard.report(badge, x, y);
    if dice.byte() % 4 == 0 {
        let _ = guard.miss(badge);
    }
    badge
}

fn report_all(guard: &mut Guard, count: u32) -> u64 {
    let mut dice = Dice { state: 1 };
    let mut sum = 0;
    for _ in 0..count {
        let badge = dice.byte() % 130;
        let x = dice.byte();
        let y = dice.byte();
        sum = mixed(sum, guard.report(badge, x, y).err().map_or(0, u64::from));
    }
    sum
}

fn ask_all(guard: &mut Guard, count: u32) -> u64 {
    let mut dice = Dice { state: 1 };
    let mut sum = 0;
    for _ in 0..count {
        let badge = hear(guard, &mut dice);
        let operation = dice.byte() % 16;
        let object = dice.byte() % 32;
        let answer = match guard.ask(badge, badge % 4, operation, object) {
            Ok(role) => 100 + role as u64,
            Err(refusal) => u64::from(refusal),
        };
        sum = mixed(sum, answer);
    }
    sum
}

fn roles_all(guard: &mut Guard, count: u32) -> u64 {
    let mut dice = Dice { state: 1 };
    let mut sum = 0;
    for _ in 0..count {
        let badge = hear(guard, &mut dice);
        sum = mixed(sum, guard.roles(badge, badge % 4).unwrap_or_else(u64::from));
    }
    sum
}

fn main() {
    let args: Vec<String> = std::env::args().skip(1).collect();
    let count: u32 = args[1].parse().expect("a number of rounds");
    let hall = Hall::read(&words::hall_words(64, 256)).expect("a hall");
    let mut guard = Guard::new(hall);
    assert!(guard.seal(&words::policy_words(64)), "the policy is not sealed");
    let signed = sign_in(&mut guard);
    let kind = args[0].as_str();
    let sum = match kind {
        "report" => report_all(&mut guard, count),
        "ask" => ask_all(&mut guard, count),
        "roles" => roles_all(&mut guard, count),
        _ => panic!("no such kind of round"),
    };
    println!("{kind} {count} active {signed} sum {sum}");
}
