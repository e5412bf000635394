// Drawn places, policies, sealing, calls and questions in plain Rust: the steps and the method of the proved crates, on the same words.
#![allow(dead_code)]

#[derive(Clone, Copy)]
pub struct Corner {
    x: u16,
    y: u16,
}

pub struct Place {
    ty: u8,
    corners: Vec<Corner>,
}

pub struct Hall {
    width: u16,
    height: u16,
    places: Vec<Place>,
}

fn side(a: Corner, b: Corner, x: u16, y: u16) -> i64 {
    (b.x as i64 - a.x as i64) * (y as i64 - a.y as i64) - (b.y as i64 - a.y as i64) * (x as i64 - a.x as i64)
}

fn between(a: u16, b: u16, n: u16) -> bool {
    a.min(b) <= n && n <= a.max(b)
}

fn on_edge(a: Corner, b: Corner, x: u16, y: u16) -> bool {
    between(a.x, b.x, x) && between(a.y, b.y, y) && side(a, b, x, y) == 0
}

fn crossed(a: Corner, b: Corner, x: u16, y: u16) -> bool {
    (a.y > y) != (b.y > y) && {
        let d = side(a, b, x, y);
        if a.y < b.y { d > 0 } else { d < 0 }
    }
}

fn covered(corners: &[Corner], x: u16, y: u16) -> bool {
    let Some(&last) = corners.last() else {
        return false;
    };
    let mut from = last;
    let mut count = 0usize;
    for &to in corners {
        if on_edge(from, to, x, y) {
            return true;
        }
        if crossed(from, to, x, y) {
            count += 1;
        }
        from = to;
    }
    count % 2 == 1
}

fn bits(word: u32, from: u32, count: u32) -> u32 {
    word >> from & ((1 << count) - 1)
}

impl Hall {
    /// The hall of a list of words without faults.
    pub fn read(words: &[u32]) -> Option<Hall> {
        let (&floor, mut rest) = words.split_first()?;
        let (width, height) = (bits(floor, 0, 9) as u16, bits(floor, 9, 9) as u16);
        if floor >> 28 != 1 || width == 0 || height == 0 || width > 256 || height > 256 || bits(floor, 18, 10) != 0 {
            return None;
        }
        let mut places = Vec::with_capacity(64);
        while let Some((&head, after)) = rest.split_first() {
            let count = bits(head, 4, 5) as usize;
            if head >> 28 != 2 || count < 3 || count > 16 || bits(head, 9, 19) != 0 || places.len() == 64 {
                return None;
            }
            let mut corners = Vec::with_capacity(16);
            for &word in after.get(..count)? {
                let corner = Corner { x: bits(word, 0, 8) as u16, y: bits(word, 8, 8) as u16 };
                if word >> 28 != 3 || corner.x >= width || corner.y >= height || bits(word, 16, 12) != 0 {
                    return None;
                }
                corners.push(corner);
            }
            places.push(Place { ty: bits(head, 0, 4) as u8, corners });
            rest = &after[count..];
        }
        Some(Hall { width, height, places })
    }

    fn type_of(&self, place: usize) -> Option<u8> {
        self.places.get(place).map(|p| p.ty)
    }

    fn covers(&self, place: usize, x: u16, y: u16) -> bool {
        x < self.width && y < self.height && self.places.get(place).is_some_and(|p| covered(&p.corners, x, y))
    }

    fn places_at(&self, x: u16, y: u16) -> u64 {
        let mut found = 0;
        for k in 0..self.places.len() {
            if self.covers(k, x, y) {
                found |= 1 << k;
            }
        }
        found
    }

    /// The lowest-numbered place of a type that covers a point.
    fn place_at(&self, ty: u8, x: u16, y: u16) -> Option<usize> {
        (0..self.places.len()).find(|&k| self.type_of(k) == Some(ty) && self.covers(k, x, y))
    }
}

#[derive(Clone, Copy)]
struct Schema {
    extent: u8,
    logic: u8,
    patience: u8,
}

#[derive(Clone, Copy)]
struct Parent {
    child: u8,
    parent: u8,
}

#[derive(Clone, Copy)]
struct Role {
    schema: u8,
    extent: u8,
}

#[derive(Default)]
struct Policy {
    badges: u8,
    schemas: Vec<Schema>,
    parents: Vec<Parent>,
    roles: Vec<Role>,
    schema_permissions: Vec<(u8, u8, u8)>,
    role_permissions: Vec<(u8, u8, u8)>,
    assignments: Vec<(u8, u8)>,
}

/// Where the key stands among rising keys, found by halving.
fn has<K: Ord>(keys: &[K], key: &K) -> bool {
    keys.binary_search(key).is_ok()
}

/// Puts a key after the others, if it is above the last.
fn put<K: Ord>(keys: &mut Vec<K>, key: K, most: usize) -> Option<()> {
    if keys.len() == most || keys.last().is_some_and(|last| *last >= key) {
        return None;
    }
    keys.push(key);
    Some(())
}

impl Policy {
    /// The policy of a list of words without faults.
    fn read(words: &[u32]) -> Option<Policy> {
        let mut policy = Policy::default();
        let mut least = 7;
        for &word in words {
            let kind = word >> 28;
            if kind < least {
                return None;
            }
            policy.take(kind, word)?;
            least = kind.max(8);
        }
        (policy.badges > 0).then_some(policy)
    }

    fn take(&mut self, kind: u32, word: u32) -> Option<()> {
        let triple = |high| (bits(word, 12, high) as u8, bits(word, 8, 4) as u8, bits(word, 0, 8) as u8);
        match kind {
            7 => self.badges = bits(word, 0, 8) as u8,
            8 => {
                let schema =
                    Schema { extent: bits(word, 0, 4) as u8, logic: bits(word, 4, 4) as u8, patience: bits(word, 8, 2) as u8 };
                if self.schemas.len() == 32 {
                    return None;
                }
                self.schemas.push(schema);
            }
            9 => {
                let step = Parent { parent: bits(word, 0, 5) as u8, child: bits(word, 5, 5) as u8 };
                let rises = self.parents.last().is_none_or(|p| (p.child, p.parent) < (step.child, step.parent));
                if !rises || step.parent >= step.child || step.child as usize >= self.schemas.len() {
                    return None;
                }
                self.parents.push(step);
            }
            10 => {
                let role = Role { extent: bits(word, 0, 6) as u8, schema: bits(word, 6, 5) as u8 };
                let rises = self.roles.last().is_none_or(|r| (r.schema, r.extent) < (role.schema, role.extent));
                if !rises || role.schema as usize >= self.schemas.len() || self.roles.len() == 64 {
                    return None;
                }
                self.roles.push(role);
            }
            11 => put(&mut self.schema_permissions, triple(5), 256)?,
            12 => put(&mut self.role_permissions, triple(6), 256)?,
            13 => put(&mut self.assignments, (bits(word, 6, 7) as u8, bits(word, 0, 6) as u8), 512)?,
            _ => return None,
        }
        Some(())
    }

    fn schema_of(&self, role: usize) -> Schema {
        self.schemas[self.roles[role].schema as usize]
    }

    fn carries(&self, role: usize, operation: u16, object: u16) -> bool {
        if role >= self.roles.len() || operation > 15 || object > 255 {
            return false;
        }
        let (operation, object) = (operation as u8, object as u8);
        has(&self.role_permissions, &(role as u8, operation, object))
            || has(&self.schema_permissions, &(self.roles[role].schema, operation, object))
    }

    fn is_assigned(&self, badge: u16, role: u16) -> bool {
        badge < self.badges as u16 && (role as usize) < self.roles.len() && has(&self.assignments, &(badge as u8, role as u8))
    }
}

/// What one pass over the floor tells: bit j of lies[i] when place i lies in place j, of shares[i] when they share a point.
struct Survey {
    count: usize,
    types: [Option<u8>; 64],
    lies: [u64; 64],
    shares: [u64; 64],
}

fn is_in(rows: &[u64], i: usize, j: usize) -> bool {
    i < rows.len() && j < 64 && rows[i] >> j & 1 == 1
}

impl Survey {
    fn of(hall: &Hall) -> Survey {
        let count = hall.places.len();
        let mut types = [None; 64];
        for (place, ty) in types.iter_mut().enumerate() {
            *ty = hall.type_of(place);
        }
        let mut lies = [u64::MAX; 64];
        let mut shares = [0u64; 64];
        for y in 0..hall.height {
            for x in 0..hall.width {
                let at = hall.places_at(x, y);
                for i in 0..count {
                    if at >> i & 1 == 1 {
                        lies[i] &= at;
                        shares[i] |= at;
                    }
                }
            }
        }
        Survey { count, types, lies, shares }
    }

    fn is_of(&self, place: usize, ty: u8) -> bool {
        place < 64 && self.types[place] == Some(ty)
    }

    fn share(&self, a: usize, b: usize) -> bool {
        is_in(&self.shares, a, b)
    }

    fn lies_in(&self, a: usize, b: usize) -> bool {
        !self.share(a, a) || is_in(&self.lies, a, b)
    }

    fn lies_in_some(&self, place: usize, ty: u8) -> bool {
        (0..self.count).any(|other| self.is_of(other, ty) && self.lies_in(place, other))
    }

    fn type_lies(&self, s: u8, t: u8) -> bool {
        (0..self.count).all(|place| !self.is_of(place, s) || self.lies_in_some(place, t))
    }

    /// Whether each of the checks 40 to 45 passes.
    fn fits(&self, policy: &Policy) -> bool {
        (0..self.count).all(|k| self.share(k, k))
            && policy.roles.iter().all(|r| self.is_of(r.extent as usize, policy.schemas[r.schema as usize].extent))
            && policy
                .schemas
                .iter()
                .all(|s| (0..self.count).all(|k| !self.is_of(k, s.logic) || self.lies_in_some(k, s.extent)))
            && policy.schemas.iter().all(|s| (0..self.count).all(|l| (0..self.count).all(|e| !self.overlap(s, l, e))))
            && policy.parents.iter().all(|p| self.alike(policy.schemas[p.child as usize], policy.schemas[p.parent as usize]))
            && policy
                .parents
                .iter()
                .all(|p| policy.schemas[p.parent as usize].patience >= policy.schemas[p.child as usize].patience)
    }

    fn overlap(&self, schema: &Schema, logic: usize, extent: usize) -> bool {
        let typed = self.is_of(logic, schema.logic) && self.is_of(extent, schema.extent);
        let crossed = self.share(logic, extent) && !self.lies_in(logic, extent);
        typed && crossed
    }

    fn alike(&self, child: Schema, parent: Schema) -> bool {
        self.type_lies(child.extent, parent.extent) && self.type_lies(child.logic, parent.logic)
    }
}

#[derive(Clone, Copy)]
enum Track {
    Unheard,
    Heard { x: u16, y: u16, misses: u8 },
}

#[derive(Clone, Copy)]
struct Session {
    opened: bool,
    active: u64,
}

#[derive(Clone, Copy)]
struct Badge {
    track: Track,
    sessions: [Session; 4],
}

const FRESH: Badge = Badge { track: Track::Unheard, sessions: [Session { opened: false, active: 0 }; 4] };

impl Badge {
    fn is_active(&self, session: u16, role: usize) -> bool {
        self.sessions.get(session as usize).is_some_and(|s| role < 64 && s.active >> role & 1 == 1)
    }
}

/// A hall, the policy sealed over it, and what is kept of each badge. A refusal is its number.
pub struct Guard {
    hall: Hall,
    policy: Policy,
    inside: [u64; 64],
    above: [u64; 64],
    badges: [Badge; 128],
}

fn table(relates: impl Fn(usize, usize) -> bool) -> [u64; 64] {
    let mut rows = [0u64; 64];
    for (i, row) in rows.iter_mut().enumerate() {
        for j in 0..64 {
            if relates(i, j) {
                *row |= 1 << j;
            }
        }
    }
    rows
}

impl Guard {
    pub fn new(hall: Hall) -> Guard {
        Guard { hall, policy: Policy::default(), inside: [0; 64], above: [0; 64], badges: [FRESH; 128] }
    }

    pub fn seal(&mut self, words: &[u32]) -> bool {
        let Some(policy) = Policy::read(words) else {
            return false;
        };
        let survey = Survey::of(&self.hall);
        if self.policy.badges != 0 || !survey.fits(&policy) {
            return false;
        }
        let roles = policy.roles.len();
        self.inside =
            table(|r, p| r < roles && p < survey.count && survey.lies_in(p, policy.roles[r].extent as usize));
        let mut reach = [0u64; 32];
        for (s, row) in reach.iter_mut().enumerate() {
            *row = 1 << s;
        }
        for step in &policy.parents {
            reach[step.child as usize] |= reach[step.parent as usize];
        }
        self.above = table(|r, a| {
            r < roles && a < roles && {
                let (low, high) = (policy.roles[r], policy.roles[a]);
                is_in(&reach, low.schema as usize, high.schema as usize)
                    && survey.lies_in(low.extent as usize, high.extent as usize)
            }
        });
        self.policy = policy;
        self.badges = [FRESH; 128];
        true
    }

    pub fn report(&mut self, badge: u16, x: u16, y: u16) -> Result<(), u8> {
        if badge >= self.policy.badges as u16 {
            return Err(1);
        }
        if x >= self.hall.width || y >= self.hall.height {
            return Err(9);
        }
        self.badges[badge as usize].track = Track::Heard { x, y, misses: 0 };
        Ok(())
    }

    pub fn miss(&mut self, badge: u16) -> Result<(), u8> {
        if badge >= self.policy.badges as u16 {
            return Err(1);
        }
        if let Track::Heard { misses, .. } = &mut self.badges[badge as usize].track {
            *misses = (*misses + 1).min(4);
        }
        Ok(())
    }

    pub fn open(&mut self, badge: u16, session: u16) -> Result<(), u8> {
        if badge >= self.policy.badges as u16 {
            return Err(1);
        }
        if session >= 4 {
            return Err(2);
        }
        let kept = &mut self.badges[badge as usize].sessions[session as usize];
        if kept.opened {
            return Err(4);
        }
        kept.opened = true;
        Ok(())
    }

    fn outside_session(&self, badge: u16, session: u16) -> Result<(), u8> {
        if badge >= self.policy.badges as u16 {
            return Err(1);
        }
        if session >= 4 {
            return Err(2);
        }
        if !self.badges[badge as usize].sessions[session as usize].opened {
            return Err(3);
        }
        Ok(())
    }

    fn is_entitled(&self, badge: u16, role: u16) -> bool {
        self.policy.is_assigned(badge, role)
            || (0..self.policy.roles.len() as u16)
                .any(|r| self.policy.is_assigned(badge, r) && is_in(&self.above, r as usize, role as usize))
    }

    pub fn activate(&mut self, badge: u16, session: u16, role: u16) -> Result<(), u8> {
        self.outside_session(badge, session)?;
        if role as usize >= self.policy.roles.len() {
            return Err(5);
        }
        if !self.is_entitled(badge, role) {
            return Err(6);
        }
        let kept = &mut self.badges[badge as usize].sessions[session as usize];
        if kept.active >> role & 1 == 1 {
            return Err(7);
        }
        kept.active |= 1 << role;
        Ok(())
    }

    fn has_right(&self, role: usize, operation: u16, object: u16) -> bool {
        (0..self.policy.roles.len()).any(|a| is_in(&self.above, role, a) && self.policy.carries(a, operation, object))
    }

    fn is_patient(&self, badge: &Badge, role: usize) -> bool {
        match badge.track {
            Track::Unheard => false,
            Track::Heard { misses, .. } => misses <= self.policy.schema_of(role).patience,
        }
    }

    fn is_enabled(&self, badge: &Badge, role: usize) -> bool {
        let Track::Heard { x, y, misses } = badge.track else {
            return false;
        };
        if role >= self.policy.roles.len() {
            return false;
        }
        let schema = self.policy.schema_of(role);
        misses <= schema.patience
            && self.hall.place_at(schema.logic, x, y).is_some_and(|place| is_in(&self.inside, role, place))
    }

    pub fn enabled(&self, badge: u16, role: u16) -> Result<bool, u8> {
        if badge >= self.policy.badges as u16 {
            return Err(1);
        }
        if role as usize >= self.policy.roles.len() {
            return Err(5);
        }
        Ok(self.is_enabled(&self.badges[badge as usize], role as usize))
    }

    pub fn roles(&self, badge: u16, session: u16) -> Result<u64, u8> {
        self.outside_session(badge, session)?;
        let state = self.badges[badge as usize];
        let mut found = 0;
        for role in 0..64 {
            if state.is_active(session, role) && self.is_enabled(&state, role) {
                found |= 1 << role;
            }
        }
        Ok(found)
    }

    pub fn ask(&self, badge: u16, session: u16, operation: u16, object: u16) -> Result<usize, u8> {
        self.outside_session(badge, session)?;
        if operation > 15 || object > 255 {
            return Err(10);
        }
        let state = self.badges[badge as usize];
        let roles = self.policy.roles.len();
        let serving = |role| state.is_active(session, role) && self.has_right(role, operation, object);
        if let Some(role) = (0..roles).find(|&role| serving(role) && self.is_enabled(&state, role)) {
            return Ok(role);
        }
        if !(0..roles).any(serving) {
            return Err(11);
        }
        if !(0..roles).any(|role| serving(role) && self.is_patient(&state, role)) {
            return Err(12);
        }
        Err(13)
    }
}
