// The steps of a sheet again, in plain safe Rust, for sheet_steps.sh to measure the proved ones against: the same command line, the same
// states and the same answers. The file is taken to be in order.
use std::env;
use std::error::Error;
use std::fs;
use std::time::Instant;

#[derive(Clone, Copy)]
enum Move {
    Internal { from: u8, name: u8, to: u8 },
    Call { from: u8, name: u8, to: u8, mark: u8 },
    Return { from: u8, name: u8, mark: u8, to: u8 },
    Pending { from: u8, name: u8, to: u8 },
}

#[derive(Clone, Copy, Default)]
struct State {
    pairs: u64,
    states: u8,
}

const COLUMN: u64 = 0x0101_0101_0101_0101;

impl State {
    fn join(&mut self, other: State) {
        self.pairs |= other.pairs;
        self.states |= other.states;
    }

    fn moved(self, from: u8, to: u8) -> State {
        State {
            pairs: ((self.pairs >> from) & COLUMN) << to,
            states: ((self.states >> from) & 1) << to,
        }
    }

    fn spread(self, from: u8, to: u8) -> State {
        State {
            pairs: ((self.pairs >> from) & COLUMN) * u64::from(to),
            states: ((self.states >> from) & 1) * to,
        }
    }
}

struct Sheet {
    states: u8,
    moves: Vec<Move>,
}

impl Sheet {
    fn identity(&self) -> u64 {
        0x8040_2010_0804_0201 & (u64::MAX >> (64 - 8 * u32::from(self.states)))
    }

    fn internal(&self, state: State, name: u8) -> State {
        let mut reached = State::default();
        for &step in &self.moves {
            if let Move::Internal { from, name: read, to } = step {
                if read == name {
                    reached.join(state.moved(from, to));
                }
            }
        }
        reached
    }

    fn pending(&self, state: State, name: u8) -> State {
        let mut reached = State::default();
        for &step in &self.moves {
            if let Move::Pending { from, name: read, to } = step {
                if read == name {
                    reached.join(state.moved(from, to));
                }
            }
        }
        reached
    }

    fn call(&self, state: State, name: u8) -> State {
        let mut reached = 0;
        for &step in &self.moves {
            if let Move::Call { from, name: read, to, .. } = step {
                if read == name {
                    reached |= state.moved(from, to).states;
                }
            }
        }
        State { pairs: self.identity(), states: reached }
    }

    fn ret(&self, state: State, before: State, opened: u8, name: u8) -> State {
        let mut row = [State::default(); 16];
        for &step in &self.moves {
            if let Move::Call { from, name: read, to, mark } = step {
                if read == opened {
                    let inner = ((state.pairs >> (8 * to)) & 255) as u8;
                    row[usize::from(mark)].join(before.spread(from, inner));
                }
            }
        }
        let mut reached = State::default();
        for &step in &self.moves {
            if let Move::Return { from, name: read, mark, to } = step {
                if read == name {
                    reached.join(row[usize::from(mark)].moved(from, to));
                }
            }
        }
        reached
    }
}

#[derive(Clone, Copy)]
enum Kind {
    Internal,
    Call,
    Return,
    Pending,
}

fn next(seed: u64) -> u64 {
    seed.wrapping_mul(6364136223846793005).wrapping_add(1442695040888963407)
}

fn state_of(seed: u64) -> State {
    State { pairs: seed, states: (seed >> 56) as u8 }
}

fn step(sheet: &Sheet, kind: Kind, seed: u64, before: u64) -> State {
    let state = state_of(seed);
    let name = ((seed >> 32) & 15) as u8;
    match kind {
        Kind::Internal => sheet.internal(state, name),
        Kind::Call => sheet.call(state, name),
        Kind::Return => sheet.ret(state, state_of(before), ((before >> 32) & 15) as u8, name),
        Kind::Pending => sheet.pending(state, name),
    }
}

fn measure(sheet: &Sheet, kind: Kind, word: &str, rounds: usize) {
    let start = Instant::now();
    let mut seed = 1u64;
    let mut sum = 0u64;
    for _ in 0..rounds {
        let before = seed;
        seed = next(seed);
        let after = step(sheet, kind, seed, before);
        sum = sum.wrapping_mul(31).wrapping_add(after.pairs).wrapping_add(u64::from(after.states));
    }
    let nanoseconds = start.elapsed().as_nanos();
    println!("{word} checksum {sum}");
    eprintln!("{word} {nanoseconds}");
}

fn load(bytes: &[u8]) -> Result<Sheet, Box<dyn Error>> {
    let mut sheet = Sheet { states: 1, moves: Vec::new() };
    let mut rest = bytes;
    while let [tag, high, low, more @ ..] = rest {
        let (contents, behind) = more.split_at(usize::from(*high) * 256 + usize::from(*low));
        match (*tag, contents) {
            (32, &[n]) => sheet.states = n,
            (33 | 34, _) => {}
            (35, &[from, name, to]) => sheet.moves.push(Move::Internal { from, name, to }),
            (36, &[from, name, to, mark]) => sheet.moves.push(Move::Call { from, name, to, mark }),
            (37, &[from, name, mark, to]) => sheet.moves.push(Move::Return { from, name, mark, to }),
            (38, &[from, name, to]) => sheet.moves.push(Move::Pending { from, name, to }),
            _ => return Err("the sheet is refused".into()),
        }
        rest = behind;
    }
    Ok(sheet)
}

fn main() -> Result<(), Box<dyn Error>> {
    let words: Vec<String> = env::args().skip(1).collect();
    let [path, rounds] = words.as_slice() else {
        return Err("expected SHEET ROUNDS".into());
    };
    let sheet = load(&fs::read(path)?)?;
    let rounds = rounds.parse()?;
    measure(&sheet, Kind::Internal, "internal", rounds);
    measure(&sheet, Kind::Call, "call", rounds);
    measure(&sheet, Kind::Return, "return", rounds);
    measure(&sheet, Kind::Pending, "pending", rounds);
    Ok(())
}
