//! Cases: machines, whole and damaged, and what is asked of them. A case is a script for the bridge and the text expected.
use crate::rules::*;

/// xorshift64*, so that a seed names the same cases everywhere.
pub struct Random(pub u64);

impl Random {
    pub fn next(&mut self) -> u64 {
        self.0 ^= self.0 >> 12;
        self.0 ^= self.0 << 25;
        self.0 ^= self.0 >> 27;
        self.0.wrapping_mul(0x2545F4914F6CDD1D) >> 16
    }

    /// Below n.
    pub fn below(&mut self, n: usize) -> usize {
        (self.next() % n as u64) as usize
    }

    pub fn one_in(&mut self, n: usize) -> bool {
        self.below(n) == 0
    }

    fn pick<T: Copy>(&mut self, items: &[T]) -> T {
        items[self.below(items.len())]
    }
}

/// A part of a script: the numbers that name it, and the machine that it is, or why it does not open.
pub struct Part {
    pub numbers: Vec<u16>,
    pub machine: Result<Machine, u16>,
}

fn or_refused(refused: Option<u16>, machine: Machine) -> Result<Machine, u16> {
    match refused {
        Some(number) => Err(number),
        None => Ok(machine),
    }
}

pub fn ring(n: u16) -> Part {
    Part { numbers: vec![n], machine: or_refused(refuse_ring(n), Machine::Ring(n)) }
}

pub fn chain(bytes: Vec<u8>) -> Part {
    let mut numbers = vec![bytes.len() as u16];
    for pair in bytes.chunks(2) {
        numbers.push(pair[0] as u16 + 256 * *pair.get(1).unwrap_or(&0) as u16);
    }
    Part { numbers, machine: or_refused(refuse_chain(&bytes), Machine::Chain(bytes)) }
}

pub fn grid(n: u16, k: u16, start: u16, next: Vec<u16>, outputs: Vec<Output>) -> Part {
    let mut numbers = vec![n, k, start, next.len() as u16];
    numbers.extend(&next);
    numbers.push(outputs.len() as u16);
    for o in &outputs {
        match *o {
            Output::Command(c) => numbers.push(c),
            Output::Move(a, b, c) => numbers.extend([a as u16, b as u16, c as u16]),
        }
    }
    let refused = refuse_grid(n, k, start, next.len(), outputs.len());
    Part { numbers, machine: or_refused(refused, Machine::Grid { n, k, start, next, outputs }) }
}

/// The front of two longer lists, opened as a table.
pub fn table(n: u16, k: u16, start: u16, next: Vec<u16>, outputs: Vec<Output>) -> Part {
    let cells = n as usize * k as usize;
    let whole = grid(n, k, start, next.clone(), outputs.clone());
    let cut = |len: usize| len.min(cells);
    let part = grid(n, k, start, next[..cut(next.len())].to_vec(), outputs[..cut(outputs.len())].to_vec());
    Part { numbers: whole.numbers, machine: part.machine }
}

pub fn beside(a: Part, b: Part) -> Part {
    join(a, b, |x, y| Machine::Beside(Box::new(x), Box::new(y)))
}

pub fn train(a: Part, b: Part) -> Part {
    join(a, b, |x, y| Machine::Train(Box::new(x), Box::new(y)))
}

fn join(a: Part, b: Part, make: impl Fn(Machine, Machine) -> Machine) -> Part {
    let machine = match (a.machine, b.machine) {
        (Err(number), _) | (Ok(_), Err(number)) => Err(number),
        (Ok(x), Ok(y)) => Ok(make(x, y)),
    };
    Part { numbers: [a.numbers, b.numbers].concat(), machine }
}

pub fn keymap(part: Part, keys: Vec<u16>) -> Part {
    let numbers = [part.numbers, vec![keys.len() as u16], keys.clone()].concat();
    Part { numbers, machine: part.machine.map(|m| Machine::Keymap(Box::new(m), keys)) }
}

/// A full table of next states and small output numbers, often with states that must join.
fn cells(r: &mut Random, n: usize, k: usize) -> Vec<(u16, u16)> {
    let letters = r.pick(&[1, 2, 2, 2, 3, 4]);
    match r.below(4) {
        // each state behaves as its class does
        0 | 1 => {
            let classes = 1 + r.below(n);
            let class: Vec<usize> = (0..n).map(|s| if s < classes { s } else { r.below(classes) }).collect();
            let shift = r.below(n);
            let class: Vec<usize> = (0..n).map(|s| class[(s + shift) % n]).collect();
            let core: Vec<(usize, u16)> = (0..classes * k).map(|_| (r.below(classes), r.below(letters) as u16)).collect();
            (0..n * k)
                .map(|x| {
                    let (c, o) = core[class[x / k] * k + x % k];
                    let members: Vec<usize> = (0..n).filter(|t| class[*t] == c).collect();
                    (r.pick(&members) as u16, o)
                })
                .collect()
        }
        // stairs: long words, few outputs that differ
        2 => {
            let odd = r.below(n * k);
            (0..n * k)
                .map(|x| {
                    let s = x / k;
                    let down = if s == 0 { r.below(n) } else { s - 1 };
                    (if x % k == 0 || r.one_in(3) { down } else { s } as u16, (x == odd) as u16)
                })
                .collect()
        }
        _ => (0..n * k).map(|_| (r.below(n) as u16, r.below(letters) as u16)).collect(),
    }
}

/// A full table of a wish of states and inputs.
pub struct Size {
    pub n: usize,
    pub k: usize,
}

pub fn small(r: &mut Random) -> Size {
    let n = if r.one_in(6) { 1 + r.below(24) } else { 1 + r.below(7) };
    let most = if r.one_in(5) { 8 } else { 3 };
    Size { n, k: 1 + r.below(most) }
}

/// Wheel moves that often differ by less than a step.
fn moves(r: &mut Random, number: u16) -> Output {
    let centre = [0i32, 10, -10, 32760, -32760, 100][number as usize % 6];
    let mut near = |base: i32| (base + r.below(10) as i32 - 5 + (base <= 0 && r.one_in(2)) as i32).clamp(-32768, 32767) as i16;
    Output::Move(near(centre), near(0), near(-centre))
}

/// Spoils a list of next states: blanks, and next states that are none.
fn spoil(r: &mut Random, n: usize, next: &mut [u16]) {
    for _ in 0..1 + r.below(3) {
        let at = r.below(next.len());
        next[at] = r.pick(&[65535, 65535, n as u16, n as u16 + 1, 65534, 128]);
    }
}

/// A grid of commands or of wheel moves, sometimes with holes.
pub fn random_grid(r: &mut Random, size: Size, wheels: bool) -> Part {
    let Size { n, k } = size;
    let table = cells(r, n, k);
    let mut next: Vec<u16> = table.iter().map(|c| c.0).collect();
    if r.one_in(6) {
        spoil(r, n, &mut next);
    }
    let outputs = table.iter().map(|c| if wheels { moves(r, c.1) } else { Output::Command(command(r, c.1)) }).collect();
    let start = r.below(n) as u16;
    grid(n as u16, k as u16, start, next, outputs)
}

/// Mostly the number itself; now and then one that only looks like it in its low byte.
fn command(r: &mut Random, number: u16) -> u16 {
    if r.one_in(200) { number + 256 } else { number }
}

/// Sizes, a start or list lengths that a grid refuses, or just takes.
pub fn refused_grid(r: &mut Random, wheels: bool) -> Part {
    let n = r.pick(&[0usize, 1, 2, 3, 127, 128, 129, 200, 65535]);
    let k = r.pick(&[0usize, 1, 2, 31, 32, 33, 65535]);
    let start = r.pick(&[0, 1, n.saturating_sub(1), n, n + 1]).min(65535) as u16;
    let cells = (n * k).min(5000);
    let mut length = || r.pick(&[cells, cells, cells, cells.saturating_sub(1), cells + 1, 0, k]).min(5000);
    let (a, b) = (length(), length());
    let output = if wheels { Output::Move(1, 2, 3) } else { Output::Command(7) };
    grid(n as u16, k as u16, start, vec![0; a], vec![output; b])
}

/// A whole chain, not in normal form: records in any order that rises, ranges that overlap, links past unused records.
pub fn loose_chain(r: &mut Random, size: Size) -> Vec<u8> {
    let Size { n, k } = size;
    let table = cells(r, n, k);
    let mut heads = vec![0u16; n];
    let mut records: Vec<[u16; 5]> = vec![];
    let mut last = vec![0usize; n];
    let mut from = vec![0usize; n];
    while from.iter().any(|f| *f < k) {
        let s = r.below(n);
        if r.one_in(12) {
            let wild: Vec<u16> = (0..5).map(|_| r.below(6) as u16).collect();
            records.push([wild[0], wild[1], wild[2], wild[3], wild[4]]);
            continue;
        }
        if from[s] >= k {
            continue;
        }
        let at = from[s];
        let mut to = at;
        while to + 1 < k && table[s * k + to + 1] == table[s * k + at] && !r.one_in(4) {
            to += 1;
        }
        let low = if r.one_in(3) { r.below(at + 1) } else { at };
        let high = if to + 1 == k && r.one_in(3) { r.pick(&[k, 31, 32, 65535]).max(to) } else { to };
        records.push([low as u16, high as u16, table[s * k + at].0, table[s * k + at].1, 0]);
        let number = records.len() as u16;
        if last[s] == 0 {
            heads[s] = number;
        } else {
            records[last[s] - 1][4] = number;
        }
        last[s] = records.len();
        from[s] = to + 1;
    }
    if r.one_in(4) {
        // records that no input reaches
        for s in 0..n {
            records.push([0, 65535, 9999, 9999, 0]);
            let number = records.len() as u16;
            records[last[s] - 1][4] = number;
        }
    }
    let mut numbers = vec![n as u16, k as u16, r.below(n) as u16, records.len() as u16];
    numbers.extend(heads);
    numbers.extend(records.concat());
    numbers.iter().flat_map(|x| x.to_le_bytes()).collect()
}

fn put16(bytes: &mut [u8], place: usize, value: u16) {
    if 2 * place + 1 < bytes.len() {
        bytes[2 * place..2 * place + 2].copy_from_slice(&value.to_le_bytes());
    }
}

/// One damage to a chain.
fn damage(r: &mut Random, bytes: &mut Vec<u8>) {
    if bytes.len() < 8 {
        bytes.push(r.below(256) as u8);
        return;
    }
    let n = word16(bytes, 0) as usize;
    let m = word16(bytes, 3) as usize;
    let record = |r: &mut Random| r.below(m.max(1));
    let base = |x: usize| 4 + n + 5 * x;
    match r.below(14) {
        0 => {
            let at = r.below(bytes.len());
            bytes[at] = r.below(256) as u8;
        }
        1 => {
            let cut = r.below(bytes.len());
            bytes.truncate(if r.one_in(3) { cut } else { bytes.len() - 1 - r.below(11).min(bytes.len() - 1) });
        }
        2 => {
            for _ in 0..1 + r.below(11) {
                bytes.push(r.below(4) as u8);
            }
        }
        // a link to its own record, or to one before it
        3 => {
            let x = record(r);
            put16(bytes, base(x) + 4, x as u16 + 1);
        }
        4 => {
            let x = record(r);
            let to = r.below(x + 1);
            put16(bytes, base(x) + 4, to as u16);
        }
        // links and heads above the count
        5 => {
            let x = record(r);
            let to = r.pick(&[m as u16, m as u16 + 1, m as u16 + 2, 65535]);
            put16(bytes, base(x) + 4, to);
        }
        6 => {
            let s = r.below(n.max(1));
            let to = r.pick(&[m as u16, m as u16 + 1, 4097, 65535]);
            put16(bytes, 4 + s, to);
        }
        // blanks
        7 => {
            let s = r.below(n.max(1));
            put16(bytes, 4 + s, 0);
        }
        8 => {
            let x = record(r);
            put16(bytes, base(x) + 4, 0);
        }
        9 => {
            let x = record(r);
            let from = r.below(5) as u16;
            put16(bytes, base(x), from);
        }
        10 => {
            let x = record(r);
            let to = r.below(5) as u16;
            put16(bytes, base(x) + 1, to);
        }
        // next states out of range
        11 => {
            let x = record(r);
            let next = r.pick(&[n as u16, n as u16 + 1, 65535, 128]);
            put16(bytes, base(x) + 2, next);
        }
        // sizes, start and count
        12 => {
            let at = r.below(4);
            let value = r.pick(&[0, 1, 32, 33, 128, 129, 4096, 4097, 65535, n as u16, n as u16 + 1]);
            put16(bytes, at, value);
        }
        _ => {
            let at = r.below(bytes.len() / 2);
            let value = r.below(12) as u16;
            put16(bytes, at, value);
        }
    }
}

pub fn damaged_chain(r: &mut Random, size: Size) -> Vec<u8> {
    let mut bytes = loose_chain(r, size);
    for _ in 0..r.pick(&[1, 1, 1, 2, 4]) {
        damage(r, &mut bytes);
    }
    bytes
}

/// Few and small numbers, so that a random chain opens now and then; or bytes of any kind.
pub fn wild_chain(r: &mut Random) -> Vec<u8> {
    if r.one_in(4) {
        return (0..r.below(40)).map(|_| r.below(256) as u8).collect();
    }
    let (n, m) = (1 + r.below(4), r.below(7));
    let mut numbers = vec![n, 1 + r.below(4), r.below(n), m];
    numbers.extend((0..n).map(|_| r.below(m + 2)));
    for x in 0..m {
        let link = if r.one_in(3) { 0 } else { x + 1 + r.below(3) };
        let most = n + r.below(2);
        numbers.extend([r.below(3), r.below(5), r.below(most), r.below(3), link]);
    }
    let mut bytes: Vec<u8> = numbers.iter().flat_map(|x| (*x as u16).to_le_bytes()).collect();
    if r.one_in(10) {
        bytes.pop();
    }
    bytes
}

/// Keys for a part of so many inputs: mostly inputs, now and then none, too many, or one that is no input.
pub fn keys(r: &mut Random, inputs: usize) -> Vec<u16> {
    let count = match r.below(40) {
        0 => 0,
        1 => 33 + r.below(3),
        2 => 32,
        _ => 1 + r.below(4),
    };
    let wide = if r.one_in(8) { inputs + 2 } else { inputs };
    (0..count).map(|_| if r.one_in(100) { 65535 } else { r.below(wide.max(1)) as u16 }).collect()
}

/// Room near a length: short, exact, long or none.
fn room(r: &mut Random, needed: usize) -> u16 {
    let extra = r.below(4);
    r.pick(&[needed, needed, needed + 1, needed + extra, needed.saturating_sub(1), needed.saturating_sub(extra), 0]) as u16
}

fn state(r: &mut Random, n: usize) -> u16 {
    if r.one_in(25) { r.pick(&[n as u16, n as u16 + 1, 128, 65535]) } else { r.below(n.max(1)) as u16 }
}

/// Calls in any order, with buffers of lengths about the ones needed.
fn calls(r: &mut Random, n: usize, k: usize, classes: usize) -> Vec<Call> {
    let count = r.pick(&[0, 2, 5, 9, 14]);
    (0..count)
        .map(|_| match r.below(16) {
            0..=4 => Call::Round,
            5 => Call::Settle,
            6..=8 => Call::Pair(state(r, n), state(r, n)),
            9..=10 => Call::Map(room(r, n)),
            11..=13 => {
                let length = r.below(4);
                Call::Word(state(r, n), state(r, n), room(r, length))
            }
            _ => Call::Table(room(r, classes * k), room(r, classes * k)),
        })
        .collect()
}

pub struct Case {
    pub kind: &'static str,
    pub script: Vec<u16>,
    pub text: String,
    pub machine: Result<Machine, u16>,
}

/// What a shape's machine is asked, and the text of all answers by the rules.
pub fn case(r: &mut Random, kind: &'static str, shape: u16, part: Part, wheels: bool) -> Case {
    let mut script = [vec![shape], part.numbers].concat();
    let machine = match part.machine {
        Err(number) => {
            // what follows a refused form is never asked
            script.extend([1, 5, 1, 0, 0, 1, 0]);
            return Case { kind, script, text: format!("refused {number}\n"), machine: Err(number) };
        }
        Ok(machine) => machine,
    };
    let mut text = String::new();
    let (n, k, start) = machine.sizes();
    let refused = machine.check();
    let written = if refused.is_none() && !wheels { machine.written() } else { vec![] };
    if !wheels {
        let count = r.below(3);
        script.push(count as u16);
        for _ in 0..count {
            let room = room(r, written.len());
            script.push(room);
            let mut buffer: Vec<u8> = (0..room).map(|p| 255 - (p % 256) as u8).collect();
            match &refused {
                Some(refusal) => text += &format!("{refusal}\n"),
                None if (room as usize) < written.len() => text += &format!("refused 8 {}\n", written.len()),
                None => {
                    buffer[..written.len()].copy_from_slice(&written);
                    text += &format!("{}\n", written.len());
                }
            }
            text += &(buffer.iter().map(|b| format!(" {b}")).collect::<String>() + "\n");
        }
    }
    text += &format!("states {n} inputs {k} start {start}\n");
    text += &(refused.clone().unwrap_or("sound".to_string()) + "\n");
    let asked = r.below(5);
    script.push(asked as u16);
    for _ in 0..asked {
        let s = state(r, n as usize);
        let i = if r.one_in(10) { r.pick(&[k, k + 1, 65535]) } else { r.below(k.max(1) as usize) as u16 };
        script.extend([s, i]);
        text += &match machine.entry(s, i) {
            Ok((t, o)) => format!("{t}{}\n", o.text()),
            Err(fault) => fault.text() + "\n",
        };
    }
    let classes = if refused.is_none() && r.one_in(2) {
        let mut words = Words::of(&machine);
        blocks(&words.partition(n as usize)) as usize
    } else {
        n as usize
    };
    let calls = calls(r, n as usize, k as usize, classes);
    let mut sheet = Sheet::open(&machine, wheels);
    script.push(calls.len() as u16);
    for call in &calls {
        match *call {
            Call::Round => script.push(0),
            Call::Settle => script.push(1),
            Call::Pair(s, t) => script.extend([2, s, t]),
            Call::Map(room) => script.extend([3, room]),
            Call::Word(s, t, room) => script.extend([4, s, t, room]),
            Call::Table(a, b) => script.extend([5, a, b]),
        }
        text += &sheet.call(call);
    }
    Case { kind, script, text, machine: Ok(machine) }
}
