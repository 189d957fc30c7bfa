//! Networks as trees, as a Rust programmer would write their interpreter with no proofs: values, states and code as enums, one
//! function that steps a part in place, counts of nodes and depth, sums checked. What a tree walk costs at least.
#[macro_use]
mod lines;
use lines::*;
use std::rc::Rc;

#[derive(Clone)]
#[allow(dead_code)]
enum Value {
    Unit,
    Bool(bool),
    Int(i64),
    Text(Rc<str>),
    Pair(Rc<(Value, Value)>),
    NoEvent,
    Event(Rc<Value>),
}

#[allow(dead_code)]
enum Code {
    Whole,
    First,
    Second,
    Constant(Value),
    Add(Rc<Code>, Rc<Code>),
    Pair(Rc<Code>, Rc<Code>),
}

enum Node {
    Identity,
    Previous(Value),
    Arrow(Rc<Code>),
    Integral(i128, i64),
    Sequence(Box<(Node, Node)>),
    Loop(Value, Box<Node>),
}

struct Meter {
    entered: u64,
    height: u64,
}

struct Stop;

fn int(v: &Value) -> Option<i64> {
    match v {
        Value::Int(n) => Some(*n),
        _ => None,
    }
}

fn run(code: &Code, x: &Value) -> Result<Value, Stop> {
    Ok(match code {
        Code::Whole => x.clone(),
        Code::First => match x {
            Value::Pair(p) => p.0.clone(),
            _ => x.clone(),
        },
        Code::Second => match x {
            Value::Pair(p) => p.1.clone(),
            _ => x.clone(),
        },
        Code::Constant(v) => v.clone(),
        Code::Add(a, b) => match (int(&run(a, x)?), int(&run(b, x)?)) {
            (Some(a), Some(b)) => Value::Int(a.checked_add(b).ok_or(Stop)?),
            _ => Value::Int(0),
        },
        Code::Pair(a, b) => Value::Pair(Rc::new((run(a, x)?, run(b, x)?))),
    })
}

fn step(node: &mut Node, dt: i64, depth: u64, value: &mut Value, meter: &mut Meter) -> Result<(), Stop> {
    if meter.entered >= 1_000_000 || depth >= 1600 {
        return Err(Stop);
    }
    meter.entered += 1;
    let inside = depth + 1;
    if meter.height < inside {
        meter.height = inside;
    }
    match node {
        Node::Identity => {}
        Node::Previous(next) => std::mem::swap(next, value),
        Node::Arrow(code) => *value = run(code, value)?,
        Node::Integral(sum, level) => {
            *sum += i128::from(dt) * i128::from(*level);
            *level = int(value).unwrap_or(0);
            *value = Value::Int(i64::try_from(*sum).map_err(|_| Stop)?);
        }
        Node::Sequence(both) => {
            step(&mut both.0, dt, inside, value, meter)?;
            step(&mut both.1, dt, inside, value, meter)?;
        }
        Node::Loop(next, part) => {
            let x = std::mem::replace(value, Value::Unit);
            let back = std::mem::replace(next, Value::Unit);
            let mut both = Value::Pair(Rc::new((x, back)));
            step(part, dt, inside, &mut both, meter)?;
            match both {
                Value::Pair(p) => match Rc::try_unwrap(p) {
                    Ok((y, back)) => (*value, *next) = (y, back),
                    Err(p) => (*value, *next) = (p.0.clone(), p.1.clone()),
                },
                other => (*value, *next) = (other.clone(), other),
            }
        }
    }
    Ok(())
}

fn chain(make: &dyn Fn() -> Node, count: usize) -> Node {
    if count == 1 {
        return make();
    }
    Node::Sequence(Box::new((chain(make, count / 2), chain(make, count - count / 2))))
}

struct Tree(Node);
impl Tree {
    fn go(&mut self, dt: i64, x: i64) -> Option<i64> {
        let mut meter = Meter { entered: 0, height: 0 };
        let mut value = Value::Int(x);
        step(&mut self.0, dt, 0, &mut value, &mut meter).ok()?;
        int(&value)
    }
}
impl Job for Tree {
    numbers!();
    fn begin(&mut self, x: i64) -> Option<i64> {
        self.go(0, x)
    }
    fn step(&mut self, dt: i64, x: i64) -> Option<i64> {
        self.go(dt, x)
    }
}

fn network(name: &str) -> Option<Node> {
    let sum = |a, b| Rc::new(Code::Add(Rc::new(a), Rc::new(b)));
    let add = Rc::new(Code::Add(Rc::new(Code::Whole), Rc::new(Code::Constant(Value::Int(1)))));
    Some(match name {
        "identity" => Node::Identity,
        "id50" => chain(&|| Node::Identity, 50),
        "ipre50" => chain(&|| Node::Previous(Value::Int(0)), 50),
        "arr50" => chain(&|| Node::Arrow(add.clone()), 50),
        "integral" => Node::Integral(0, 0),
        "total" => Node::Loop(
            Value::Int(0),
            Box::new(Node::Arrow(Rc::new(Code::Pair(sum(Code::First, Code::Second), sum(Code::First, Code::Second))))),
        ),
        _ => return None,
    })
}

fn main() {
    let words: Vec<String> = std::env::args().collect();
    let count = words.get(2).map(|word| word.parse().unwrap());
    let name = words.get(1).map_or("", String::as_str);
    match network(name) {
        Some(node) => lines::run(name, Tree(node), count),
        None => std::process::exit(1),
    }
}
