// What both comparison programs keep: phases, cells and worker records, with items of type I.
#[derive(Clone, Copy, PartialEq)]
pub enum Phase { Idle, E1, E2, E3, E4, E5, E6, E7, E8, E9, E10, E11, D1, D2, D3, D4, D5, D6, D7, D8, D9 }
#[derive(Clone, Copy, PartialEq)]
pub struct Pair { pub safe: bool, pub epoch: u64 }
#[derive(Clone, Copy)]
pub enum Value<I> { Empty, Token(u16), Item(I) }
#[derive(Clone, Copy)]
pub struct Cell<I> { pub pair: Pair, pub value: Value<I> }
#[derive(Clone, Copy)]
pub struct Worker<I> { pub phase: Phase, pub ticket: u64, pub item: Option<I>, pub pair: Pair, pub value: Value<I> }

// Head and Tail go up to this number.
pub const LIMIT: u64 = 1_000_000_000_000;

impl<I> Worker<I> {
    pub const IDLE: Worker<I> = Worker { phase: Phase::Idle, ticket: 0, item: None, pair: Pair { safe: false, epoch: 0 }, value: Value::Empty };
}

// An item never counts as still as read.
pub fn still<I>(now: Value<I>, read: Value<I>) -> bool {
    match (now, read) { (Value::Empty, Value::Empty) => true, (Value::Token(a), Value::Token(b)) => a == b, _ => false }
}
