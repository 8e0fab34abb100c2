// ringplay in plain Rust, for comparing speed: rustc -O --edition 2021 bench/ringplay.rs
use std::io::{Read, Write};

use table::{LIMIT, Pair, Phase, Phase::*, still};

mod table;

type Item = [u8; 15];
type Value = table::Value<Item>;
type Cell = table::Cell<Item>;
type Worker = table::Worker<Item>;
const IDLE: Worker = Worker::IDLE;
struct Table { kind: u64, cells: Vec<Cell>, workers: Vec<Worker>, head: u64, tail: u64, closed: bool }
// number, ticket, item, whether an S order ends
type Reply = (u64, u64, Option<Item>, bool);

fn refused(n: u64) -> Reply { (n, 0, None, true) }
const WORKING: Reply = (1, 0, None, false);

impl Table {
    fn assign(&mut self, n: u16, phase: Phase, item: Option<Item>) -> Reply {
        if n == 0 || n as usize > self.workers.len() { return refused(14); }
        let w = &mut self.workers[n as usize - 1];
        if w.phase != Idle { return refused(15); }
        *w = Worker { phase, item, ..IDLE };
        (0, 0, None, false)
    }
    fn step(&mut self, n: u16) -> Reply {
        if n == 0 || n as usize > self.workers.len() { return refused(14); }
        let r = self.cells.len() as u64;
        let w = &mut self.workers[n as usize - 1];
        if w.phase == Idle { return refused(16); }
        let t = w.ticket;
        let c = t / r;
        let cell = &mut self.cells[(t % r) as usize];
        let prq = self.kind == 2;
        match w.phase {
            Idle => {}
            E1 => { if self.tail == LIMIT { return refused(17); } w.ticket = self.tail; self.tail += 1; w.phase = E2; }
            E2 => { if self.closed { let i = w.item; *w = IDLE; return (7, t, i, true); } w.phase = E3; }
            E3 => { w.pair = cell.pair; w.phase = E4; }
            E4 => {
                w.value = cell.value;
                let out = if prq { matches!(cell.value, Value::Item(_)) || w.pair.epoch >= c } else { !matches!(cell.value, Value::Empty) || w.pair.epoch > c };
                w.phase = if out { E9 } else if w.pair.safe { E6 } else { E5 };
            }
            E5 => { w.phase = if self.head <= t { E6 } else { E9 }; }
            E6 if prq => { if still(cell.value, w.value) { cell.value = Value::Token(n); w.phase = E7; } else { w.phase = E9; } }
            E6 => {
                if cell.pair == w.pair && matches!(cell.value, Value::Empty) {
                    let i = w.item.unwrap();
                    *cell = Cell { pair: Pair { safe: true, epoch: c }, value: Value::Item(i) };
                    *w = IDLE;
                    return (2, t, Some(i), true);
                }
                w.phase = E9;
            }
            E7 => { if cell.pair == w.pair { cell.pair = Pair { safe: true, epoch: c }; w.phase = E8; } else { w.phase = E11; } }
            E8 => {
                if matches!(cell.value, Value::Token(m) if m == n) { let i = w.item.unwrap(); cell.value = Value::Item(i); *w = IDLE; return (2, t, Some(i), true); }
                w.phase = E9;
            }
            E9 => { w.phase = if t >= self.head + r { E10 } else { E1 }; }
            E10 => { self.closed = true; let i = w.item; *w = IDLE; return (6, t, i, true); }
            E11 => { if matches!(cell.value, Value::Token(m) if m == n) { cell.value = Value::Empty; } w.phase = E9; }
            D1 => { if self.head == LIMIT { return refused(17); } w.ticket = self.head; self.head += 1; w.phase = D2; }
            D2 => { w.pair = cell.pair; w.phase = D3; }
            D3 if prq => { w.value = cell.value; w.phase = D4; }
            D3 | D4 => {
                if w.phase == D3 { w.value = cell.value; } else if cell.pair != w.pair { w.phase = D2; return WORKING; }
                if w.pair.epoch > c || (!prq && matches!(w.value, Value::Token(_))) { w.phase = D9; return (4, t, None, false); }
                w.phase = match w.value { Value::Item(_) => if w.pair.epoch == c { D5 } else { D8 }, Value::Token(_) => D6, Value::Empty => D7 };
            }
            D5 => {
                let Value::Item(i) = w.value else { return refused(13) };
                if prq { cell.value = Value::Empty; *w = IDLE; return (3, t, Some(i), true); }
                if cell.pair == w.pair && matches!(cell.value, Value::Item(_)) { cell.value = Value::Empty; cell.pair.epoch = c + 1; *w = IDLE; return (3, t, Some(i), true); }
                w.phase = D2;
            }
            D6 => { if matches!(w.value, Value::Token(_)) && still(cell.value, w.value) { cell.value = Value::Empty; w.phase = D7; } else { w.phase = D2; } }
            D7 => {
                if cell.pair == w.pair && (prq || matches!(cell.value, Value::Empty)) { cell.pair.epoch = if prq { c } else { c + 1 }; w.phase = D9; return (4, t, None, false); }
                w.phase = D2;
            }
            D8 => {
                if cell.pair == w.pair && (prq || matches!(cell.value, Value::Item(_))) { cell.pair.safe = false; w.phase = D9; return (4, t, None, false); }
                w.phase = D2;
            }
            D9 => { if self.tail <= t + 1 { *w = IDLE; return (5, t, None, true); } w.phase = D1; }
        }
        WORKING
    }
}

// A fault: layer, number, column.
type Fault = (u64, u64, u64);

fn number(field: &[u8], least: i64, most: i64, column: u64) -> Result<i64, Fault> {
    let form = Err((1, 23, column));
    let text: &[u8] = { let k = field.iter().take_while(|b| **b == b' ').count(); &field[k..] };
    let (minus, digits) = match text.split_first() { Some((b'-', d)) => (true, d), _ => (false, text) };
    if digits.is_empty() || !digits.iter().all(u8::is_ascii_digit) || (digits[0] == b'0' && (digits.len() > 1 || minus)) { return form; }
    let n = digits.iter().fold(0i64, |n, d| n * 10 + i64::from(d - b'0'));
    let n = if minus { -n } else { n };
    if n < least || n > most { Err((1, 24, column)) } else { Ok(n) }
}

fn check_item(kind: i64, i: &[u8]) -> Result<(), Fault> {
    if kind == 1 {
        number(&i[0..8], 0, 99_999_999, 6)?;
        number(&i[8..12], 0, 9_999, 14)?;
        number(&i[12..15], -99, 999, 18)?;
    } else {
        match &i[0..6] {
            b" block" | b" sweep" => { number(&i[6..15], 0, 999_999_999, 12)?; }
            b" flush" | b"  stop" => if i[6..15] != *b"         " { return Err((1, 23, 12)); },
            _ => return Err((1, 23, 6)),
        }
    }
    Ok(())
}

#[derive(Clone, Copy)]
enum Order<'a> { Enqueue(u16, &'a [u8]), Dequeue(u16), Steps(u16, u64) }

fn play<'a>(bytes: &'a [u8]) -> Result<(u64, u64, u64, Vec<Order<'a>>), (Fault, u64)> {
    if bytes.len() > 60_000 { return Err(((3, 26, 1), 1)); }
    let mut header = None;
    let mut orders = Vec::new();
    let (mut at, mut line) = (0, 1);
    while at < bytes.len() {
        let end = bytes[at..].iter().position(|b| *b == b'\n').map(|k| at + k);
        let columns = &bytes[at..end.unwrap_or(bytes.len())];
        let fault = |f: Fault| (f, line);
        let letter = columns.first().copied().unwrap_or(b'\n');
        let width = match letter { b'R' => 14, b'E' => 20, b'D' => 5, b'S' => 9, _ => return Err(fault((2, 22, 1))) };
        if (letter == b'R') != (line == 1) { return Err(fault((3, 25, 1))); }
        if columns.len() != width || end.is_none() { return Err(fault((2, 21, 1))); }
        if letter == b'R' {
            let k = number(&columns[1..3], 1, 2, 2).map_err(fault)?;
            let r = number(&columns[3..8], 1, 1024, 4).map_err(fault)?;
            let w = number(&columns[8..12], 1, 64, 9).map_err(fault)?;
            let i = number(&columns[12..14], 1, 2, 13).map_err(fault)?;
            header = Some((k, r, w, i));
        } else {
            let w = number(&columns[1..5], 1, 64, 2).map_err(fault)? as u16;
            orders.push(match letter {
                b'E' => { check_item(header.unwrap().3, &columns[5..20]).map_err(fault)?; Order::Enqueue(w, &columns[5..20]) }
                b'D' => Order::Dequeue(w),
                _ => Order::Steps(w, number(&columns[5..9], 1, 9999, 6).map_err(fault)? as u64),
            });
        }
        at = end.unwrap() + 1;
        line += 1;
    }
    match header { Some((k, r, w, _)) => Ok((k as u64, r as u64, w as u64, orders)), None => Err(((3, 25, 1), 1)) }
}

fn main() {
    let mut bytes = Vec::new();
    std::io::stdin().take(60_001).read_to_end(&mut bytes).unwrap();
    let mut out = Vec::new();
    match play(&bytes) {
        Err(((layer, n, column), line)) => writeln!(out, "?{layer:2}{n:3}{line:5}{column:3}").unwrap(),
        Ok((kind, r, w, orders)) => {
            let fresh = Cell { pair: Pair { safe: true, epoch: 0 }, value: Value::Empty };
            let mut t = Table { kind, cells: vec![fresh; r as usize], workers: vec![IDLE; w as usize], head: r, tail: r, closed: false };
            let mut calls = 0u64;
            let mut tell = |calls: u64, w: u16, reply: Reply| {
                if reply.0 >= 2 {
                    write!(out, "{calls:9}{w:4}{:3}{:13}", reply.0, reply.1).unwrap();
                    out.extend_from_slice(&reply.2.unwrap_or([b' '; 15]));
                    out.push(b'\n');
                }
            };
            for order in orders {
                match order {
                    Order::Enqueue(w, i) => { calls += 1; let x = t.assign(w, E1, Some(i.try_into().unwrap())); tell(calls, w, x); }
                    Order::Dequeue(w) => { calls += 1; let x = t.assign(w, D1, None); tell(calls, w, x); }
                    Order::Steps(w, n) => for _ in 0..n { calls += 1; let x = t.step(w); tell(calls, w, x); if x.3 { break; } },
                }
            }
            let occupied = t.cells.iter().filter(|c| matches!(c.value, Value::Item(_))).count();
            writeln!(out, "={:13}{:13}{:2}{:5}", t.head, t.tail, t.closed as u8, occupied).unwrap();
        }
    }
    std::io::stdout().write_all(&out).unwrap();
}
