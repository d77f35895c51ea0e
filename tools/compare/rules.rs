//! The rules of docs/FORMATS.md, docs/REFUSALS.md and docs/SHEET.md, followed to the letter and with no thought for speed.
//! Nothing here comes from the verified library.

#[derive(Clone, Copy, PartialEq, Debug)]
pub enum Output {
    Command(u16),
    Move(i16, i16, i16),
}

/// To the nearest whole number of tens, a half away from zero.
pub fn tens(offset: i16) -> i32 {
    let size = (offset as i32).abs();
    let (whole, rest) = (size / 10, size % 10);
    let near = if 2 * rest >= 10 { whole + 1 } else { whole };
    if offset < 0 { -near } else { near }
}

impl Output {
    fn key(self) -> Vec<i32> {
        match self {
            Output::Command(c) => vec![c as i32],
            Output::Move(a, b, c) => vec![tens(a), tens(b), tens(c)],
        }
    }

    pub fn text(self) -> String {
        match self {
            Output::Command(c) => format!(" {c}"),
            Output::Move(a, b, c) => format!(" {a}/{b}/{c}"),
        }
    }
}

#[derive(Clone, Debug)]
pub enum Machine {
    Ring(u16),
    Grid { n: u16, k: u16, start: u16, next: Vec<u16>, outputs: Vec<Output> },
    Chain(Vec<u8>),
    Beside(Box<Machine>, Box<Machine>),
    Train(Box<Machine>, Box<Machine>),
    Keymap(Box<Machine>, Vec<u16>),
}

/// A fault at the bottom, and the sides on the way to it.
#[derive(Clone, Debug, PartialEq)]
pub struct Fault {
    pub path: String,
    pub cause: u8,
    pub state: u16,
    pub input: u16,
    pub place: Option<usize>,
}

impl Fault {
    fn under(mut self, side: &str) -> Fault {
        self.path = format!("{side}: {}", self.path);
        self
    }

    pub fn text(&self) -> String {
        let words = ["", "no such state", "no such input", "blank cell", "next state out of range", "broken link", "misfit"];
        let place = match self.place {
            Some(p) => format!(" at place {p}"),
            None => String::new(),
        };
        format!("cause {}, {}state {} input {}: {}{}", self.cause, self.path, self.state, self.input, words[self.cause as usize], place)
    }
}

pub type Entry = Result<(u16, Output), Fault>;

fn stored(cause: u8, state: u16, input: u16, place: usize) -> Entry {
    Err(Fault { path: String::new(), cause, state, input, place: Some(place) })
}

fn own(cause: u8, state: u16, input: u16) -> Entry {
    Err(Fault { path: String::new(), cause, state, input, place: None })
}

pub fn word16(bytes: &[u8], place: usize) -> u16 {
    bytes[2 * place] as u16 + 256 * bytes[2 * place + 1] as u16
}

/// Why stored sizes are refused.
fn refuse_sizes(n: u16, k: u16, start: u16) -> Option<u16> {
    if n < 1 || n > 128 || k < 1 || k > 32 {
        Some(10)
    } else if start >= n {
        Some(11)
    } else {
        None
    }
}

pub fn refuse_ring(n: u16) -> Option<u16> {
    refuse_sizes(n, 3, 0)
}

pub fn refuse_grid(n: u16, k: u16, start: u16, nexts: usize, outputs: usize) -> Option<u16> {
    let cells = n as usize * k as usize;
    refuse_sizes(n, k, start).or(if nexts != cells { Some(12) } else if outputs != cells { Some(13) } else { None })
}

pub fn refuse_chain(bytes: &[u8]) -> Option<u16> {
    if bytes.len() < 8 {
        return Some(20);
    }
    let (n, m) = (word16(bytes, 0), word16(bytes, 3));
    if let Some(r) = refuse_sizes(n, word16(bytes, 1), word16(bytes, 2)) {
        return Some(r);
    }
    if m > 4096 {
        return Some(21);
    }
    if bytes.len() != 2 * (4 + n as usize + 5 * m as usize) {
        return Some(22);
    }
    None
}

/// The walk of a state along its records.
fn walk(bytes: &[u8], state: u16, input: u16) -> Entry {
    let (n, m) = (word16(bytes, 0), word16(bytes, 3));
    let mut here = 0u16;
    let mut link = word16(bytes, 4 + state as usize);
    loop {
        if link == 0 {
            return stored(3, state, input, here as usize);
        }
        if link > m || link <= here {
            return stored(5, state, input, here as usize);
        }
        here = link;
        let at = 4 + n as usize + 5 * (here as usize - 1);
        let record: Vec<u16> = (0..5).map(|x| word16(bytes, at + x)).collect();
        if record[0] <= input && input <= record[1] {
            if record[2] >= n {
                return stored(4, state, input, here as usize);
            }
            return Ok((record[2], Output::Command(record[3])));
        }
        link = record[4];
    }
}

impl Machine {
    /// States, inputs and start; all 0 for a misfit.
    pub fn sizes(&self) -> (u16, u16, u16) {
        match self {
            Machine::Ring(n) => (*n, 3, 0),
            Machine::Grid { n, k, start, .. } => (*n, *k, *start),
            Machine::Chain(bytes) => (word16(bytes, 0), word16(bytes, 1), word16(bytes, 2)),
            Machine::Beside(a, b) => {
                let ((n, k, start), (m, l, _)) = (a.sizes(), b.sizes());
                if n == 0 || m == 0 || k != l || n + m > 128 { (0, 0, 0) } else { (n + m, k, start) }
            }
            Machine::Train(a, b) => {
                let ((n, k, start), (m, _, above)) = (a.sizes(), b.sizes());
                if n == 0 || m == 0 || n * m > 128 { (0, 0, 0) } else { (n * m, k, start * m + above) }
            }
            Machine::Keymap(part, keys) => {
                let (n, _, start) = part.sizes();
                if n == 0 || keys.is_empty() || keys.len() > 32 { (0, 0, 0) } else { (n, keys.len() as u16, start) }
            }
        }
    }

    /// Why a misfit is one, asked for a state and an input.
    fn misfit(&self, s: u16, i: u16) -> Entry {
        let parts: Vec<(&str, &Machine)> = match self {
            Machine::Beside(a, b) | Machine::Train(a, b) => vec![("first", a), ("second", b)],
            Machine::Keymap(part, _) => vec![("part", part)],
            _ => vec![],
        };
        for (side, part) in parts {
            if part.sizes().0 == 0 {
                return part.entry(s, i).map_err(|f| f.under(side));
            }
        }
        own(6, s, i)
    }

    pub fn entry(&self, s: u16, i: u16) -> Entry {
        let (n, k, _) = self.sizes();
        if n == 0 {
            return self.misfit(s, i);
        }
        let leaf = matches!(self, Machine::Ring(_) | Machine::Grid { .. } | Machine::Chain(_));
        let cause = if s >= n { 1 } else if i >= k { 2 } else { 0 };
        if cause > 0 {
            return if leaf { stored(cause, s, i, 0) } else { own(cause, s, i) };
        }
        match self {
            Machine::Ring(n) => Ok(match i {
                0 => ((s + 1) % n, Output::Command(if s + 1 == *n { 1 } else { 0 })),
                1 => ((s + n - 1) % n, Output::Command(if s == 0 { 2 } else { 0 })),
                _ => (s, Output::Command(0)),
            }),
            Machine::Grid { n, k, next, outputs, .. } => {
                let place = s as usize * *k as usize + i as usize;
                match next[place] {
                    65535 => stored(3, s, i, place),
                    t if t >= *n => stored(4, s, i, place),
                    t => Ok((t, outputs[place])),
                }
            }
            Machine::Chain(bytes) => walk(bytes, s, i),
            Machine::Beside(a, b) => {
                let first = a.sizes().0;
                if s < first {
                    a.entry(s, i).map_err(|f| f.under("first"))
                } else {
                    b.entry(s - first, i).map(|(t, o)| (t + first, o)).map_err(|f| f.under("second"))
                }
            }
            Machine::Train(a, b) => {
                let (m, l, _) = b.sizes();
                let (x, command) = a.entry(s / m, i).map_err(|f| f.under("first"))?;
                let Output::Command(c) = command else { panic!("a train of moves") };
                let (y, o) = b.entry(s % m, c.min(l - 1)).map_err(|f| f.under("second"))?;
                Ok((x * m + y, o))
            }
            Machine::Keymap(part, keys) => part.entry(s, keys[i as usize]).map_err(|f| f.under("part")),
        }
    }

    /// What the check says, as text; `None` for a sound machine.
    pub fn check(&self) -> Option<String> {
        let (n, k, _) = self.sizes();
        if n == 0 {
            return Some(format!("refused 1 {}", self.entry(0, 0).unwrap_err().text()));
        }
        for s in 0..n {
            for i in 0..k {
                if let Err(f) = self.entry(s, i) {
                    return Some(format!("refused 2 state {s} input {i} {}", f.text()));
                }
            }
        }
        None
    }

    /// The chain that writing makes of a sound machine with commands.
    pub fn written(&self) -> Vec<u8> {
        let (n, k, start) = self.sizes();
        let (mut heads, mut records): (Vec<u16>, Vec<[u16; 5]>) = (vec![], vec![]);
        for s in 0..n {
            let cells: Vec<(u16, Output)> = (0..k).map(|i| self.entry(s, i).unwrap()).collect();
            heads.push(records.len() as u16 + 1);
            let mut from = 0;
            while from < k {
                let mut to = from;
                while to + 1 < k && cells[to as usize + 1] == cells[from as usize] {
                    to += 1;
                }
                let (t, o) = cells[from as usize];
                let Output::Command(c) = o else { panic!("a chain of moves") };
                let link = if to + 1 == k { 0 } else { records.len() as u16 + 2 };
                records.push([from, to, t, c, link]);
                from = to + 1;
            }
        }
        let mut numbers = vec![n, k, start, records.len() as u16];
        numbers.extend(heads);
        numbers.extend(records.concat());
        numbers.iter().flat_map(|x| [(x % 256) as u8, (x / 256) as u8]).collect()
    }
}

/// A sound machine's cells, and the first of the shortest telling words of each two states.
pub struct Words {
    pub n: usize,
    pub k: usize,
    pub start: usize,
    pub cells: Vec<Vec<(usize, Output)>>,
    keys: Vec<Vec<Vec<i32>>>,
    found: Vec<Vec<Option<Option<Vec<u16>>>>>,
}

impl Words {
    pub fn of(machine: &Machine) -> Words {
        let (n, k, start) = machine.sizes();
        let row = |s| (0..k).map(|i| machine.entry(s, i).unwrap()).map(|(t, o)| (t as usize, o)).collect();
        let cells: Vec<Vec<(usize, Output)>> = (0..n).map(row).collect();
        let keys = cells.iter().map(|r| r.iter().map(|c| c.1.key()).collect()).collect();
        let found = vec![vec![None; n as usize]; n as usize];
        Words { n: n as usize, k: k as usize, start: start as usize, cells, keys, found }
    }

    /// Words in order of length and then as in a dictionary, over pairs of states; a pair met again brings nothing new.
    fn search(&self, s: usize, t: usize) -> Option<Vec<u16>> {
        let mut met = vec![false; self.n * self.n];
        let mut queue = vec![(s, t, Vec::new())];
        met[s * self.n + t] = true;
        let mut front = 0;
        while front < queue.len() {
            let (a, b, word) = queue[front].clone();
            for i in 0..self.k {
                if self.keys[a][i] != self.keys[b][i] {
                    return Some([word, vec![i as u16]].concat());
                }
            }
            for i in 0..self.k {
                let (x, y) = (self.cells[a][i].0, self.cells[b][i].0);
                if !met[x * self.n + y] {
                    met[x * self.n + y] = true;
                    queue.push((x, y, [word.clone(), vec![i as u16]].concat()));
                }
            }
            front += 1;
        }
        None
    }

    /// The first of the shortest words that tell two states apart.
    pub fn word(&mut self, s: usize, t: usize) -> Option<Vec<u16>> {
        if self.found[s][t].is_none() {
            self.found[s][t] = Some(self.search(s, t));
        }
        self.found[s][t].clone().unwrap()
    }

    /// Whether no word of at most j inputs tells two states apart.
    fn alike_for(&mut self, j: usize, s: usize, t: usize) -> bool {
        match self.word(s, t) {
            Some(w) => w.len() > j,
            None => true,
        }
    }

    /// P j: the block of each state, numbered by its lowest state.
    pub fn partition(&mut self, j: usize) -> Vec<u16> {
        let mut block = vec![];
        let mut count = 0;
        for s in 0..self.n {
            match (0..s).find(|t| self.alike_for(j, *t, s)) {
                Some(t) => block.push(block[t]),
                None => {
                    block.push(count);
                    count += 1;
                }
            }
        }
        block
    }
}

pub fn blocks(partition: &[u16]) -> u16 {
    partition.iter().max().unwrap() + 1
}

#[derive(Clone, Debug)]
pub enum Call {
    Round,
    Settle,
    Pair(u16, u16),
    Map(u16),
    Word(u16, u16, u16),
    Table(u16, u16),
}

/// A sheet by its definition: the rounds that split, and whether one has settled.
pub struct Sheet {
    words: Option<Words>,
    rounds: usize,
    settled: bool,
    present: Vec<u16>,
    moves: bool,
}

fn list(items: &[u16]) -> String {
    items.iter().map(|x| format!(" {x}")).collect::<String>() + "\n"
}

/// A buffer before a call.
pub fn fresh(room: u16) -> Vec<u16> {
    (0..room).map(|p| 65535 - p).collect()
}

fn fresh_output(moves: bool, place: u16) -> Output {
    if moves {
        let p = (place % 16384) as i16;
        Output::Move(p, -1 - p, 7)
    } else {
        Output::Command(65535 - place)
    }
}

impl Sheet {
    pub fn open(machine: &Machine, moves: bool) -> Sheet {
        let mut words = if machine.check().is_none() { Some(Words::of(machine)) } else { None };
        let present = words.as_mut().map(|w| w.partition(0)).unwrap_or_default();
        Sheet { words, rounds: 0, settled: false, present, moves }
    }

    /// One round; the words of its answer.
    fn round(&mut self) -> String {
        let next = self.words.as_mut().unwrap().partition(self.rounds + 1);
        if next == self.present {
            self.settled = true;
            return format!("settled {}\n", blocks(&next));
        }
        self.present = next;
        self.rounds += 1;
        format!("split {}\n", blocks(&self.present))
    }

    fn settle(&mut self) -> String {
        let mut rounds = 0;
        while !self.settled {
            self.round();
            rounds += 1;
        }
        format!("rounds {rounds} count {}\n", blocks(&self.present))
    }

    /// The word of two states that the sheet can give by now.
    fn telling(&mut self, s: u16, t: u16) -> Option<Vec<u16>> {
        let rounds = self.rounds;
        self.words.as_mut().unwrap().word(s as usize, t as usize).filter(|w| w.len() <= rounds)
    }

    pub fn call(&mut self, call: &Call) -> String {
        let refused = |number: &str, buffers: &str| format!("refused {number}\n{buffers}");
        let moves = self.moves;
        let outputs_text = |outs: &[Output]| outs.iter().map(|o| o.text()).collect::<String>() + "\n";
        let fresh_outputs = |room: u16| (0..room).map(|p| fresh_output(moves, p)).collect::<Vec<Output>>();
        let buffers = match call {
            Call::Map(room) | Call::Word(_, _, room) => list(&fresh(*room)),
            Call::Table(a, b) => list(&fresh(*a)) + &outputs_text(&fresh_outputs(*b)),
            _ => String::new(),
        };
        let Some(words) = &self.words else {
            return refused("3", &buffers);
        };
        let (n, k, start) = (words.n, words.k, words.start);
        match call {
            Call::Round | Call::Settle if self.settled => refused("4", ""),
            Call::Round => self.round(),
            Call::Settle => self.settle(),
            Call::Pair(s, t) => {
                if *s as usize >= n || *t as usize >= n {
                    return refused("5", "");
                }
                match self.telling(*s, *t) {
                    Some(w) => format!("apart {}\n", w.len()),
                    None if self.settled => "equivalent\n".to_string(),
                    None => "together\n".to_string(),
                }
            }
            Call::Map(room) => {
                if (*room as usize) < n {
                    return refused(&format!("8 {n}"), &buffers);
                }
                let mut out = fresh(*room);
                out[..n].copy_from_slice(&self.present);
                format!("done\n{}", list(&out))
            }
            Call::Word(s, t, room) => {
                if *s as usize >= n || *t as usize >= n {
                    return refused("5", &buffers);
                }
                let Some(w) = self.telling(*s, *t) else {
                    return refused("6", &buffers);
                };
                if (*room as usize) < w.len() {
                    return refused(&format!("8 {}", w.len()), &buffers);
                }
                let mut out = fresh(*room);
                out[..w.len()].copy_from_slice(&w);
                format!("{}\n{}", w.len(), list(&out))
            }
            Call::Table(a, b) => {
                if !self.settled {
                    return refused("7", &buffers);
                }
                let classes = blocks(&self.present);
                let total = classes as usize * k;
                if (*a as usize) < total {
                    return refused("8 1", &buffers);
                }
                if (*b as usize) < total {
                    return refused("8 2", &buffers);
                }
                let (mut next, mut outs) = (fresh(*a), fresh_outputs(*b));
                for c in 0..classes {
                    let lowest = self.present.iter().position(|x| *x == c).unwrap();
                    for i in 0..k {
                        let (t, o) = words.cells[lowest][i];
                        next[c as usize * k + i] = self.present[t];
                        outs[c as usize * k + i] = o;
                    }
                }
                format!("classes {classes} start {}\n{}{}", self.present[start], list(&next), outputs_text(&outs))
            }
        }
    }
}
