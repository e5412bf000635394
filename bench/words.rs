// The words of the hall and its policy, as crates/guardbench/src/hall.rt has them.

fn corner_word(side: u32, of: u32, depth: u32, k: u32) -> u32 {
    let half = side / 4;
    let room = half - 2;
    let radius = half - 1 - depth * room / 16;
    let reach = if k % 2 == 0 { radius } else { radius - room / 16 };
    let along = reach * (k % 4) / 4;
    let out = reach - along;
    let (x, y) = (half * (1 + 2 * (of % 2)), half * (1 + 2 * (of / 2)));
    let (x, y) = match k / 4 {
        0 => (x + out, y + along),
        1 => (x - along, y + out),
        2 => (x - out, y - along),
        _ => (x + along, y - out),
    };
    0x3000_0000 | y << 8 | x
}

pub fn hall_words(places: u32, side: u32) -> Vec<u32> {
    let mut words = vec![0x1000_0000 | side << 9 | side];
    for n in 0..places {
        words.push(0x2000_0100 | n / 4);
        words.extend((0..16).map(|k| corner_word(side, n % 4, n / 4, k)));
    }
    words
}

fn types_of(schema: u32, depths: u32) -> (u32, u32) {
    (schema * depths / 32, ((schema + 1) * depths / 32).min(depths - 1))
}

pub fn policy_words(places: u32) -> Vec<u32> {
    let depths = places / 4;
    let mut words = vec![0x7000_0080];
    for s in 0..32 {
        let (extent, logic) = types_of(s, depths);
        words.push(0x8000_0000 | (3 - s / 8) << 8 | logic << 4 | extent);
    }
    for s in 1..32u32 {
        for parent in s.saturating_sub(2)..s {
            words.push(0x9000_0000 | s << 5 | parent);
        }
    }
    for s in 0..32 {
        let place = types_of(s, depths).0 * 4 + s % 2;
        words.push(0xA000_0000 | s << 6 | place);
        words.push(0xA000_0000 | s << 6 | place + 2);
    }
    for s in 0..32 {
        words.extend((0..8).map(|i| 0xB000_0000 | s << 12 | (2 * i) << 8 | (s * 5 + i) % 32));
    }
    for r in 0..64 {
        words.extend((0..4).map(|i| 0xC000_0000 | r << 12 | (4 * i + 1) << 8 | (r * 3 + i) % 32));
    }
    for b in 0..128 {
        words.extend((0..4).map(|i| 0xD000_0000 | b << 6 | b % 13 + 17 * i));
    }
    words
}
