// The same ten million steps as crates/step_bench, in plain Rust: rustc -O --edition 2021 bench/steps.rs
#![allow(dead_code)]
use table::{LIMIT, Pair, Phase, still};

mod table;

type Value = table::Value<u32>;
type Cell = table::Cell<u32>;
type Worker = table::Worker<u32>;
const IDLE: Worker = Worker::IDLE;
struct Control { cells: u64, workers: usize, head: u64, tail: u64, closed: bool }
#[derive(Clone, Copy)]
enum Answer { Working, Placed(u64, u32), Taken(u64, u32), PassedOver(u64), Empty(u64), Full(u64, u32), Closed(u64, u32) }
#[derive(Clone, Copy)]
enum Refusal { Misfit, Nobody, Idle, Spent }

fn step(c: &mut Control, cells: &mut [Cell], workers: &mut [Worker], n: u16) -> Result<Answer, Refusal> {
    use Phase::*;
    if cells.len() as u64 != c.cells || workers.len() != c.workers { return Err(Refusal::Misfit); }
    if n == 0 || n as usize > c.workers { return Err(Refusal::Nobody); }
    let w = &mut workers[n as usize - 1];
    if w.phase == Idle { return Err(Refusal::Idle); }
    if w.ticket >= LIMIT { return Err(Refusal::Misfit); }
    let enqueue = matches!(w.phase, E1 | E2 | E3 | E4 | E5 | E6 | E7 | E8 | E9 | E10 | E11);
    if enqueue && w.item.is_none() { return Err(Refusal::Misfit); }
    let t = w.ticket;
    let round = t / c.cells;
    let cell = &mut cells[(t % c.cells) as usize];
    match w.phase {
        Idle => unreachable!(),
        E1 => { if c.tail == LIMIT { return Err(Refusal::Spent); } w.ticket = c.tail; c.tail += 1; w.phase = E2; }
        E2 => { if c.closed { let i = w.item.unwrap(); *w = IDLE; return Ok(Answer::Closed(t, i)); } w.phase = E3; }
        E3 => { w.pair = cell.pair; w.phase = E4; }
        E4 => { w.value = cell.value; w.phase = if matches!(cell.value, Value::Item(_)) || w.pair.epoch >= round { E9 } else if w.pair.safe { E6 } else { E5 }; }
        E5 => { w.phase = if c.head <= t { E6 } else { E9 }; }
        E6 => { if still(cell.value, w.value) { cell.value = Value::Token(n); w.phase = E7; } else { w.phase = E9; } }
        E7 => { if cell.pair == w.pair { cell.pair = Pair { safe: true, epoch: round }; w.phase = E8; } else { w.phase = E11; } }
        E8 => { if let Value::Token(m) = cell.value { if m == n { let i = w.item.unwrap(); cell.value = Value::Item(i); *w = IDLE; return Ok(Answer::Placed(t, i)); } } w.phase = E9; }
        E9 => { w.phase = if t >= c.head + c.cells { E10 } else { E1 }; }
        E10 => { c.closed = true; let i = w.item.unwrap(); *w = IDLE; return Ok(Answer::Full(t, i)); }
        E11 => { if let Value::Token(m) = cell.value { if m == n { cell.value = Value::Empty; } } w.phase = E9; }
        D1 => { if c.head == LIMIT { return Err(Refusal::Spent); } w.ticket = c.head; c.head += 1; w.phase = D2; }
        D2 => { w.pair = cell.pair; w.phase = D3; }
        D3 => { w.value = cell.value; w.phase = D4; }
        D4 => {
            if cell.pair != w.pair { w.phase = D2; }
            else if w.pair.epoch > round { w.phase = D9; return Ok(Answer::PassedOver(t)); }
            else { w.phase = match w.value { Value::Item(_) => if w.pair.epoch == round { D5 } else { D8 }, Value::Token(_) => D6, Value::Empty => D7 }; }
        }
        D5 => { if let Value::Item(i) = w.value { cell.value = Value::Empty; *w = IDLE; return Ok(Answer::Taken(t, i)); } return Err(Refusal::Misfit); }
        D6 => { if matches!(w.value, Value::Token(_)) && still(cell.value, w.value) { cell.value = Value::Empty; w.phase = D7; } else { w.phase = D2; } }
        D7 => { if cell.pair == w.pair { cell.pair.epoch = round; w.phase = D9; return Ok(Answer::PassedOver(t)); } w.phase = D2; }
        D8 => { if cell.pair == w.pair { cell.pair.safe = false; w.phase = D9; return Ok(Answer::PassedOver(t)); } w.phase = D2; }
        D9 => { if c.tail <= t + 1 { *w = IDLE; return Ok(Answer::Empty(t)); } w.phase = D1; }
    }
    Ok(Answer::Working)
}

fn main() {
    let mut cells = [Cell { pair: Pair { safe: true, epoch: 0 }, value: Value::Empty }; 64];
    let mut workers = [IDLE; 7];
    let mut c = Control { cells: 64, workers: 7, head: 64, tail: 64, closed: false };
    let (mut placed, mut taken) = (0u64, 0u64);
    let mut enqueues = [true; 7];
    let mut note = |a: Answer| match a { Answer::Placed(..) => placed += 1, Answer::Taken(..) => taken += 1, _ => {} };
    for turn in 0..10_000_000u32 {
        let at = (turn % 7) as usize;
        let n = at as u16 + 1;
        match step(&mut c, &mut cells, &mut workers, n) {
            Ok(a) => note(a),
            Err(_) => {
                let phase = if enqueues[at] { Phase::E1 } else { Phase::D1 };
                let item = if enqueues[at] { Some(turn) } else { None };
                workers[at] = Worker { phase, item, ..IDLE };
                enqueues[at] = !enqueues[at];
                if let Ok(a) = step(&mut c, &mut cells, &mut workers, n) { note(a); }
            }
        }
    }
    println!("Head {}, Tail {}, placed {}, taken {}", c.head, c.tail, placed, taken);
}
