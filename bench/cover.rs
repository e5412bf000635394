// The same hall and the same rule of coverage in plain Rust, to time the proved program beside it.

#[derive(Clone, Copy)]
struct Corner {
    x: u16,
    y: u16,
}

struct Place {
    corners: Vec<Corner>,
}

struct Hall {
    width: u16,
    height: u16,
    places: Vec<Place>,
}

fn side(a: Corner, b: Corner, x: u16, y: u16) -> i64 {
    (b.x as i64 - a.x as i64) * (y as i64 - a.y as i64) - (b.y as i64 - a.y as i64) * (x as i64 - a.x as i64)
}

fn between(a: u16, b: u16, n: u16) -> bool {
    a.min(b) <= n && n <= a.max(b)
}

fn on_edge(a: Corner, b: Corner, x: u16, y: u16) -> bool {
    between(a.x, b.x, x) && between(a.y, b.y, y) && side(a, b, x, y) == 0
}

fn crossed(a: Corner, b: Corner, x: u16, y: u16) -> bool {
    (a.y > y) != (b.y > y) && {
        let d = side(a, b, x, y);
        if a.y < b.y { d > 0 } else { d < 0 }
    }
}

fn covered(corners: &[Corner], x: u16, y: u16) -> bool {
    let Some(&last) = corners.last() else {
        return false;
    };
    let mut from = last;
    let mut count = 0usize;
    for &to in corners {
        if on_edge(from, to, x, y) {
            return true;
        }
        if crossed(from, to, x, y) {
            count += 1;
        }
        from = to;
    }
    count % 2 == 1
}

impl Hall {
    fn covers(&self, place: usize, x: u16, y: u16) -> bool {
        x < self.width && y < self.height && self.places.get(place).is_some_and(|p| covered(&p.corners, x, y))
    }
}

fn hall() -> Hall {
    let places = (0..64u16)
        .map(|n| Place {
            corners: (0..16u16)
                .map(|k| Corner { x: (k * 61 + n * 37) % 256, y: (k * 97 + n * 53) % 256 })
                .collect(),
        })
        .collect();
    Hall { width: 256, height: 256, places }
}

fn main() {
    let hall = std::hint::black_box(hall());
    let mut all = 0u64;
    for y in 0..hall.height {
        for x in 0..hall.width {
            for place in 0..hall.places.len() {
                if hall.covers(place, x, y) {
                    all += 1;
                }
            }
        }
    }
    println!("covered {all}");
}
