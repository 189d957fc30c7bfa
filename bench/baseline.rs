//! Some networks' jobs by hand, as a Rust programmer would write each alone: no network and no tree, all sums checked. With a count
//! behind its name a job is run on made inputs, in the process alone.
#[macro_use]
mod lines;
use lines::*;

struct Identity;
impl Job for Identity {
    numbers!();
    fn begin(&mut self, x: i64) -> Option<i64> {
        Some(x)
    }
    fn step(&mut self, _: i64, x: i64) -> Option<i64> {
        Some(x)
    }
}

/// 50 delays as one ring.
struct Delays([i64; 50], usize);
impl Job for Delays {
    numbers!();
    fn begin(&mut self, x: i64) -> Option<i64> {
        self.step(0, x)
    }
    fn step(&mut self, _: i64, x: i64) -> Option<i64> {
        let y = std::mem::replace(&mut self.0[self.1], x);
        self.1 = if self.1 == 49 { 0 } else { self.1 + 1 };
        Some(y)
    }
}

/// 50 checked sums.
struct Sums;
impl Job for Sums {
    numbers!();
    fn begin(&mut self, x: i64) -> Option<i64> {
        self.step(0, x)
    }
    fn step(&mut self, _: i64, x: i64) -> Option<i64> {
        (0..50).try_fold(x, |x, _| std::hint::black_box(x).checked_add(1))
    }
}

struct Previous(i64);
impl Job for Previous {
    numbers!();
    fn begin(&mut self, x: i64) -> Option<i64> {
        self.step(0, x)
    }
    fn step(&mut self, _: i64, x: i64) -> Option<i64> {
        Some(std::mem::replace(&mut self.0, x))
    }
}

struct Total(i64);
impl Job for Total {
    numbers!();
    fn begin(&mut self, x: i64) -> Option<i64> {
        self.step(0, x)
    }
    fn step(&mut self, _: i64, x: i64) -> Option<i64> {
        self.0 = self.0.checked_add(x)?;
        Some(self.0)
    }
}

/// The sum may be any whole number; only what is shown has to be within 64 bits.
#[derive(Clone, Copy)]
struct Integral {
    sum: i128,
    level: i64,
}
impl Integral {
    fn next(&mut self, dt: i64, x: i64) -> Option<i64> {
        self.sum += i128::from(dt) * i128::from(self.level);
        self.level = x;
        i64::try_from(self.sum).ok()
    }
}
impl Job for Integral {
    numbers!();
    fn begin(&mut self, x: i64) -> Option<i64> {
        self.next(0, x)
    }
    fn step(&mut self, dt: i64, x: i64) -> Option<i64> {
        self.next(dt, x)
    }
}

fn event(bytes: &[u8]) -> Option<Option<&[u8]>> {
    match bytes {
        b"none" => Some(None),
        _ => bytes.strip_prefix(b"event ").map(Some),
    }
}

fn pair(bytes: &[u8]) -> Option<(i64, &[u8])> {
    let inside = bytes.strip_prefix(b"(")?.strip_suffix(b")")?;
    let (first, rest) = number(inside)?;
    Some((first, rest.strip_prefix(b",")?))
}

enum Rewired {
    Passing,
    Anew(Integral, i64),
}
impl Job for Rewired {
    type In = (i64, Option<i64>);
    type Out = i64;
    fn begin(&mut self, x: Self::In) -> Option<i64> {
        self.step(0, x)
    }
    fn step(&mut self, dt: i64, (x, event): Self::In) -> Option<i64> {
        let before = match self {
            Rewired::Passing => x,
            Rewired::Anew(area, c) => area.next(dt, x)?.checked_add(*c)?,
        };
        match event {
            None => Some(before),
            Some(c) => {
                let mut area = Integral { sum: 0, level: 0 };
                let y = area.next(0, x)?.checked_add(c)?;
                *self = Rewired::Anew(area, c);
                Some(y)
            }
        }
    }
    fn read(bytes: &[u8]) -> Option<Self::In> {
        let (first, rest) = pair(bytes)?;
        Some((first, match event(rest)? {
            None => None,
            Some(payload) => Some(whole(payload)?),
        }))
    }
    fn write(out: &mut Vec<u8>, y: i64) {
        put_number(out, y)
    }
    fn make(n: i64) -> Self::In {
        (n % 3 + 1, if n % 3 == 0 { Some(10) } else { None })
    }
    fn hash(y: i64) -> i64 {
        y
    }
}

/// A game and whether its menu is open; the game goes on at the step of the press that closes the menu.
struct Pause {
    game: Integral,
    frozen_for: Option<i64>,
}
impl Job for Pause {
    type In = (i64, bool);
    type Out = i64;
    fn begin(&mut self, (x, _): Self::In) -> Option<i64> {
        self.game.next(0, x)
    }
    fn step(&mut self, dt: i64, (x, press): Self::In) -> Option<i64> {
        match (self.frozen_for, press) {
            (None, false) => self.game.next(dt, x),
            (None, true) => {
                self.frozen_for = Some(dt);
                Some(-1)
            }
            (Some(_), false) => Some(-1),
            (Some(wait), true) => {
                self.frozen_for = None;
                self.game.next(wait, x)
            }
        }
    }
    fn read(bytes: &[u8]) -> Option<Self::In> {
        let (first, rest) = pair(bytes)?;
        Some((first, match event(rest)? {
            None => false,
            Some(b"()") => true,
            Some(_) => return None,
        }))
    }
    fn write(out: &mut Vec<u8>, y: i64) {
        put_number(out, y)
    }
    fn make(n: i64) -> Self::In {
        (n % 7 + 1, true)
    }
    fn hash(y: i64) -> i64 {
        y
    }
}

/// At an event time begins at 0; at the next sample what has passed is told twice.
struct Freeze {
    passed: Option<i64>,
}
impl Job for Freeze {
    type In = bool;
    type Out = i64;
    fn begin(&mut self, event: bool) -> Option<i64> {
        self.step(0, event)
    }
    fn step(&mut self, dt: i64, event: bool) -> Option<i64> {
        if event {
            self.passed = Some(0);
            return Some(0);
        }
        let Some(passed) = &mut self.passed else {
            return Some(-1);
        };
        *passed = passed.checked_add(dt)?;
        passed.checked_add(*passed)
    }
    fn read(bytes: &[u8]) -> Option<bool> {
        match bytes {
            b"((),none)" => Some(false),
            b"((),event ())" => Some(true),
            _ => None,
        }
    }
    fn write(out: &mut Vec<u8>, y: i64) {
        put_number(out, y)
    }
    fn make(n: i64) -> bool {
        n % 2 == 0
    }
    fn hash(y: i64) -> i64 {
        y
    }
}

struct Crossing {
    passed: Option<i64>,
    shown: &'static str,
}
impl Crossing {
    fn light(passed: i64) -> &'static str {
        if passed < 2000 {
            "yellow"
        } else if passed < 7000 {
            "red"
        } else {
            "green"
        }
    }
}
impl Job for Crossing {
    type In = bool;
    type Out = &'static str;
    fn begin(&mut self, x: bool) -> Option<&'static str> {
        self.step(0, x)
    }
    fn step(&mut self, dt: i64, press: bool) -> Option<&'static str> {
        let is_begun = press && self.shown == "green";
        if is_begun {
            self.passed = Some(0);
        } else if let Some(passed) = &mut self.passed {
            *passed = passed.checked_add(dt)?;
        }
        self.shown = self.passed.map_or("green", Crossing::light);
        Some(self.shown)
    }
    fn read(bytes: &[u8]) -> Option<bool> {
        match bytes {
            b"none" => Some(false),
            b"event ()" => Some(true),
            _ => None,
        }
    }
    fn write(out: &mut Vec<u8>, y: &'static str) {
        out.push(b'"');
        out.extend_from_slice(y.as_bytes());
        out.push(b'"');
    }
    fn make(n: i64) -> bool {
        n % 5 == 0
    }
    fn hash(y: &'static str) -> i64 {
        y.len() as i64
    }
}

struct Up(i64);
impl Job for Up {
    type In = ();
    type Out = i64;
    fn begin(&mut self, _: ()) -> Option<i64> {
        Some(self.0)
    }
    fn step(&mut self, _: i64, _: ()) -> Option<i64> {
        self.0 = self.0.checked_add(1)?;
        Some(self.0)
    }
    fn read(bytes: &[u8]) -> Option<()> {
        if bytes == b"()" { Some(()) } else { None }
    }
    fn write(out: &mut Vec<u8>, y: i64) {
        put_number(out, y)
    }
    fn make(_: i64) {}
    fn hash(y: i64) -> i64 {
        y
    }
}

fn main() {
    let words: Vec<String> = std::env::args().collect();
    let count = words.get(2).map(|word| word.parse().unwrap());
    let name = words.get(1).map_or("", String::as_str);
    match name {
        "identity" | "id50" => run(name, Identity, count),
        "ipre50" => run(name, Delays([0; 50], 0), count),
        "arr50" => run(name, Sums, count),
        "previous" => run(name, Previous(7), count),
        "total" => run(name, Total(0), count),
        "integral" => run(name, Integral { sum: 0, level: 0 }, count),
        "rswitch" => run(name, Rewired::Passing, count),
        "kpause" => run(name, Pause { game: Integral { sum: 0, level: 0 }, frozen_for: None }, count),
        "kfreeze" => run(name, Freeze { passed: None }, count),
        "crossing" => run(name, Crossing { passed: None, shown: "green" }, count),
        "recursive" => run(name, Up(0), count),
        _ => std::process::exit(1),
    }
}
