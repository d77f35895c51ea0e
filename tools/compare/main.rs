//! Plays cases on the verified library, through its bridge, and compares every byte with what the rules say.
mod cases;
mod rules;

use cases::*;
use rules::*;
use std::collections::BTreeMap;

const SEED: u64 = 0x5EED_0F_A_9A4E1;

unsafe extern "C" {
    fn bridge_play(script: *const u16, numbers: usize, out: *mut u8, room: usize) -> usize;
    fn bridge_hundredths(offset: i16) -> i16;
}

/// The answer's length, and the buffer afterwards, filled with a pattern before.
fn play(script: &[u16], room: usize) -> (usize, Vec<u8>) {
    let mut out: Vec<u8> = (0..room).map(|x| (x % 251) as u8).collect();
    // SAFETY: both slices are live, do not overlap, and are passed with their lengths.
    let length = unsafe { bridge_play(script.as_ptr(), script.len(), out.as_mut_ptr(), out.len()) };
    (length, out)
}

struct Tally {
    random: Random,
    counts: BTreeMap<&'static str, [usize; 3]>,
    calls: BTreeMap<String, usize>,
    sides: BTreeMap<String, usize>,
    differences: usize,
}

impl Tally {
    /// Compares one case, in a buffer that is long, exact, or too short for the text.
    fn compare(&mut self, case: &Case) {
        let needed = case.text.len();
        let room = match self.random.below(12) {
            0 => needed,
            1 => needed.saturating_sub(1 + self.random.below(20)),
            _ => needed + 1 + self.random.below(64),
        };
        let mut expected: Vec<u8> = (0..room).map(|x| (x % 251) as u8).collect();
        if needed <= room {
            expected[..needed].copy_from_slice(case.text.as_bytes());
        }
        let (length, out) = play(&case.script, room);
        let count = self.counts.entry(case.kind).or_default();
        count[0] += 1;
        match &case.machine {
            Err(_) => count[2] += 1,
            Ok(m) if m.check().is_some() => count[1] += 1,
            Ok(_) => {}
        }
        for line in case.text.lines() {
            if let Some((_, fault)) = line.split_once("cause ") {
                let (cause, words) = fault.split_once(", ").unwrap();
                let sides = &words[..words.find("state ").unwrap()];
                *self.sides.entry(format!("{sides}cause {cause}")).or_default() += 1;
            }
            if let Some(c) = line.chars().next().filter(|c| c.is_ascii_alphabetic()) {
                let words: Vec<&str> = line.split(' ').collect();
                let name = match c {
                    'r' if words[0] == "refused" => format!("refused {}", words[1]),
                    'c' if words[0] == "cause" => format!("cause {}", words[1].trim_end_matches(',')),
                    _ => words[0].to_string(),
                };
                *self.calls.entry(name).or_default() += 1;
            }
        }
        if length != needed || out != expected {
            self.differences += 1;
            let (length, out) = play(&case.script, length.min(10_000_000));
            println!("DIFFERENCE in {}: script {:?}", case.kind, case.script);
            println!("machine {:?}", case.machine);
            println!("the rules say ({needed} bytes):\n{}", case.text);
            println!("the library says ({length} bytes):\n{}", String::from_utf8_lossy(&out));
        }
    }

    fn make(&mut self, kind: &'static str, shape: u16, part: Part, wheels: bool) -> Case {
        let case = case(&mut self.random, kind, shape, part, wheels);
        self.compare(&case);
        case
    }

    /// A sound machine with commands is written, and what was written is played as a chain: the same cells, written the same.
    fn trip(&mut self, case: Case) {
        let Ok(machine) = case.machine else { return };
        if machine.check().is_some() {
            return;
        }
        let bytes = machine.written();
        let again = Machine::Chain(bytes.clone());
        let (n, k, _) = machine.sizes();
        assert_eq!(again.sizes(), machine.sizes());
        for s in 0..n {
            for i in 0..k {
                assert_eq!(again.entry(s, i), machine.entry(s, i));
            }
        }
        assert_eq!(again.written(), bytes);
        self.make("written chains, read back", 0, chain(bytes), false);
    }

    /// The table of a sound machine, with more behind it, is opened as a table and reduced again.
    fn retable(&mut self, case: Case) {
        let Ok(machine) = case.machine else { return };
        if machine.check().is_some() {
            return;
        }
        let mut words = Words::of(&machine);
        let partition = words.partition(words.n);
        let mut next = vec![];
        let mut outputs = vec![];
        for c in 0..blocks(&partition) {
            let lowest = partition.iter().position(|x| *x == c).unwrap();
            for (t, o) in &words.cells[lowest] {
                next.push(partition[*t]);
                outputs.push(*o);
            }
        }
        let r = &mut self.random;
        let (more, less) = (r.below(4), if r.one_in(10) { 1 } else { 0 });
        next.extend(vec![60000; more]);
        outputs.extend(vec![Output::Command(9); r.below(4)]);
        next.truncate(next.len() - less);
        let start = partition[words.start];
        let part = table(blocks(&partition), words.k as u16, start, next, outputs);
        self.make("tables, opened again", 10, part, false);
    }

    /// The normal form of a chain of any kind.
    fn normal(&mut self) {
        let r = &mut self.random;
        let size = small(r);
        let bytes = match r.below(4) {
            0 => wild_chain(r),
            1 => damaged_chain(r, size),
            _ => loose_chain(r, size),
        };
        let part = chain(bytes);
        let text = match &part.machine {
            Err(number) => format!("refused {number}\n"),
            Ok(machine) => match machine.check() {
                Some(refusal) => refusal + "\n",
                None => machine.written().iter().map(|b| format!(" {b}")).collect::<String>() + "\n",
            },
        };
        let script = [vec![11], part.numbers].concat();
        self.compare(&Case { kind: "chains in normal form", script, text, machine: part.machine });
    }

    fn round_of_cases(&mut self) {
        self.normal();
        let r = &mut self.random;
        let size = small(r);
        let part = chain(loose_chain(r, size));
        let case = self.make("chains, whole", 0, part, false);
        self.trip(case);
        for _ in 0..3 {
            let r = &mut self.random;
            let size = small(r);
            let part = chain(damaged_chain(r, size));
            self.make("chains, damaged", 0, part, false);
        }
        let r = &mut self.random;
        let part = chain(wild_chain(r));
        self.make("chains, wild", 0, part, false);
        for _ in 0..2 {
            let r = &mut self.random;
            let size = small(r);
            let part = random_grid(r, size, false);
            let case = self.make("grids of commands", 1, part, false);
            self.retable(case);
        }
        for _ in 0..2 {
            let r = &mut self.random;
            let size = small(r);
            let part = random_grid(r, size, true);
            self.make("grids of wheel moves", 2, part, true);
        }
        if self.random.one_in(4) {
            let wheels = self.random.one_in(2);
            let part = refused_grid(&mut self.random, wheels);
            self.make("grids, sizes and lengths", if wheels { 2 } else { 1 }, part, wheels);
        }
        self.piles();
    }

    fn chain_part(&mut self) -> Part {
        let r = &mut self.random;
        let size = small(r);
        chain(if r.one_in(8) { damaged_chain(r, size) } else { loose_chain(r, size) })
    }

    fn inputs(part: &Part) -> usize {
        part.machine.as_ref().map(|m| m.sizes().1 as usize).unwrap_or(1)
    }

    fn ring_part(&mut self) -> Part {
        let r = &mut self.random;
        let n = if r.one_in(30) { [0, 1, 64, 65, 127, 128, 129, 65535][r.below(8)] } else { 1 + r.below(6) as u16 };
        ring(n)
    }

    /// A chain with as many inputs as another part, or now and then another count.
    fn chain_like(&mut self, inputs: usize) -> Part {
        let r = &mut self.random;
        let mut size = small(r);
        if !r.one_in(10) {
            size.k = inputs.clamp(1, 32);
        }
        chain(if r.one_in(8) { damaged_chain(r, size) } else { loose_chain(r, size) })
    }

    fn wheels_like(&mut self, inputs: usize) -> Part {
        let r = &mut self.random;
        let mut size = small(r);
        if !r.one_in(10) {
            size.k = inputs.clamp(1, 32);
        }
        random_grid(r, size, true)
    }

    fn piles(&mut self) {
        let part = self.chain_part();
        let list = keys(&mut self.random, Self::inputs(&part));
        let case = self.make("keys over a chain", 4, keymap(part, list), false);
        if self.random.one_in(4) {
            self.trip(case);
        }

        let (lower, upper) = (self.chain_part(), self.ring_part());
        self.make("a train of a chain and a ring", 5, train(lower, upper), false);

        let first = self.chain_part();
        let second = self.chain_like(Self::inputs(&first));
        self.make("a chain beside a chain", 6, beside(first, second), false);

        let part = self.ring_part();
        let list = keys(&mut self.random, 3);
        let lower = keymap(part, list);
        let upper = beside(self.ring_part(), self.ring_part());
        let case = self.make("a train of keyed rings and rings beside rings", 7, train(lower, upper), false);
        if self.random.one_in(4) {
            self.trip(case);
        }

        let lower = self.chain_part();
        let size = small(&mut self.random);
        let upper = random_grid(&mut self.random, Size { n: size.n.min(4), k: size.k }, false);
        let both = train(lower, upper);
        let inputs = Self::inputs(&both);
        let mut list = keys(&mut self.random, 3);
        if !self.random.one_in(10) {
            list = (0..inputs).map(|_| self.random.below(3) as u16).collect();
        }
        let keyed = keymap(self.ring_part(), list);
        let pile = beside(both, keyed);
        let list = keys(&mut self.random, Self::inputs(&pile));
        let case = self.make("three layers of commands", 8, keymap(pile, list), false);
        if self.random.one_in(4) {
            self.trip(case);
        }

        let part = self.chain_part();
        let list = keys(&mut self.random, Self::inputs(&part));
        let lower = keymap(part, list);
        let inputs = Self::inputs(&lower);
        let wide = 1 + self.random.below(3);
        let train = train(lower, self.wheels_like(wide));
        let part = self.wheels_like(2);
        let mut list = keys(&mut self.random, Self::inputs(&part));
        if !self.random.one_in(10) {
            let below = Self::inputs(&part).max(1);
            list = (0..inputs).map(|_| self.random.below(below) as u16).collect();
        }
        self.make("three layers of wheel moves", 9, beside(train, keymap(part, list)), true);
    }

    /// Machines up to the limits, and rings of every size about them.
    fn limits(&mut self) {
        for n in (0..140).chain([255, 256, 32768, 65535]) {
            self.make("rings of every size", 3, ring(n), false);
        }
        for x in 0..300 {
            let r = &mut self.random;
            let n = [128, 127, 64, 100][r.below(4)];
            let k = if x % 10 == 0 { 32 } else { 1 + r.below(5) };
            match x % 3 {
                0 => {
                    let part = random_grid(r, Size { n, k }, false);
                    let case = self.make("machines at the limits", 1, part, false);
                    if x % 2 == 0 {
                        self.trip(case);
                    }
                }
                1 => {
                    let part = random_grid(r, Size { n, k: k.min(5) }, true);
                    self.make("machines at the limits", 2, part, true);
                }
                _ => {
                    let part = chain(loose_chain(r, Size { n, k }));
                    self.make("machines at the limits", 0, part, false);
                }
            }
        }
    }

    fn hundredths(&mut self) {
        for offset in i16::MIN..=i16::MAX {
            // SAFETY: numbers only.
            let shown = unsafe { bridge_hundredths(offset) };
            self.counts.entry("offsets as hundredths").or_default()[0] += 1;
            if shown as i32 != tens(offset) {
                self.differences += 1;
                println!("DIFFERENCE: offset {offset} is {} by the rules and {shown} in the library", tens(offset));
            }
        }
    }
}

fn main() {
    let mut words = std::env::args().skip(1);
    let rounds: usize = words.next().map_or(7000, |w| w.parse().expect("a count of rounds"));
    let seed: u64 = words.next().map_or(SEED, |w| w.parse().expect("a seed"));
    let mut tally = Tally { random: Random(seed), counts: BTreeMap::new(), calls: BTreeMap::new(), sides: BTreeMap::new(), differences: 0 };
    for _ in 0..rounds {
        tally.round_of_cases();
        if tally.differences > 20 {
            break;
        }
    }
    if tally.differences == 0 {
        tally.limits();
    }
    let cases: usize = tally.counts.values().map(|c| c[0]).sum();
    tally.hundredths();
    println!("seed {seed}");
    println!("{:<50} {:>8} {:>10} {:>12}", "kind", "cases", "not sound", "not opened");
    for (kind, [all, unsound, unopened]) in &tally.counts {
        println!("{kind:<50} {all:>8} {unsound:>10} {unopened:>12}");
    }
    println!("answers by their first words:");
    for (name, count) in &tally.calls {
        println!("  {name:<14} {count:>8}");
    }
    println!("faults by their sides and causes:");
    for (sides, count) in &tally.sides {
        println!("  {sides:<44} {count:>8}");
    }
    println!("cases {cases}");
    println!("differences {}", tally.differences);
    if tally.differences > 0 {
        std::process::exit(1);
    }
}
