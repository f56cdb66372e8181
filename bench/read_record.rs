// The reader of records again, in plain safe Rust, for read_record.sh to measure the proved one against: the same command line, the
// same checks in the same order, and the same answers.
use std::env;
use std::error::Error;
use std::fmt;
use std::fs;
use std::time::Instant;

const LONGEST_RECORD: usize = 65535;

// The most letters that a record has: each takes 4 bytes or more of 65,535.
const MOST_LETTERS: usize = 16383;

/// What is wrong with a file, and the offset of the field that has the fault.
#[derive(Clone, Copy, Debug, PartialEq)]
enum Fault {
    Cut(usize),
    Tag(usize),
    Length(usize),
    Byte(usize),
    Missing(usize),
    Repeated(usize),
    TooMany(usize),
    Unlisted(usize),
    TooLong(usize),
    NoRoom(usize),
}

impl fmt::Display for Fault {
    fn fmt(&self, f: &mut fmt::Formatter) -> fmt::Result {
        write!(f, "refused: {self:?}")
    }
}

impl Error for Fault {}

/// A field: its tag, its contents, and the offset of its tag.
struct Field<'a> {
    tag: u8,
    contents: &'a [u8],
    place: usize,
}

/// The fields of a file, from its start to its end.
struct Fields<'a> {
    bytes: &'a [u8],
    place: usize,
}

impl<'a> Fields<'a> {
    fn new(bytes: &'a [u8]) -> Self {
        Fields { bytes, place: 0 }
    }

    fn next(&mut self) -> Result<Option<Field<'a>>, Fault> {
        let place = self.place;
        let left = &self.bytes[place..];
        if left.is_empty() {
            return Ok(None);
        }
        let [tag, high, low, rest @ ..] = left else {
            return Err(Fault::Cut(place));
        };
        let length = usize::from(u16::from_be_bytes([*high, *low]));
        let contents = rest.get(..length).ok_or(Fault::Cut(place))?;
        self.place += 3 + length;
        Ok(Some(Field { tag: *tag, contents, place }))
    }
}

fn is_name_byte(byte: u8) -> bool {
    matches!(byte, b'a'..=b'z' | b'A'..=b'Z' | b'0'..=b'9' | b'_' | b'-' | b'.')
}

fn has_name_length(name: &[u8]) -> bool {
    (1..=32).contains(&name.len())
}

fn has_name_bytes(name: &[u8]) -> bool {
    name.iter().all(|byte| is_name_byte(*byte))
}

fn find(names: &[Vec<u8>], name: &[u8]) -> Option<usize> {
    names.iter().position(|listed| listed == name)
}

fn read_names(bytes: &[u8]) -> Result<Vec<Vec<u8>>, Fault> {
    let mut fields = Fields::new(bytes);
    let mut names = Vec::new();
    while let Some(field) = fields.next()? {
        if field.tag != 16 {
            return Err(Fault::Tag(field.place));
        }
        if !has_name_length(field.contents) {
            return Err(Fault::Length(field.place));
        }
        if names.len() >= 16 {
            return Err(Fault::TooMany(field.place));
        }
        if !has_name_bytes(field.contents) {
            return Err(Fault::Byte(field.place));
        }
        if find(&names, field.contents).is_some() {
            return Err(Fault::Repeated(field.place));
        }
        names.push(field.contents.to_vec());
    }
    if names.is_empty() {
        return Err(Fault::Missing(bytes.len()));
    }
    Ok(names)
}

fn letter_code(names: &[Vec<u8>], field: &Field) -> Result<u8, Fault> {
    let kind = match field.tag {
        1 => 0,
        2 => 16,
        3 => 32,
        _ => return Err(Fault::Tag(field.place)),
    };
    if !has_name_length(field.contents) {
        return Err(Fault::Length(field.place));
    }
    if !has_name_bytes(field.contents) {
        return Err(Fault::Byte(field.place));
    }
    let number = find(names, field.contents).ok_or(Fault::Unlisted(field.place))?;
    Ok(kind + number as u8)
}

/// Reads a record: writes the codes of its letters into `codes`, and answers how many there are.
fn read_record(names: &[Vec<u8>], bytes: &[u8], codes: &mut [u8]) -> Result<usize, Fault> {
    if bytes.len() > LONGEST_RECORD {
        return Err(Fault::TooLong(0));
    }
    let mut fields = Fields::new(bytes);
    let mut count = 0;
    while let Some(field) = fields.next()? {
        let code = letter_code(names, &field)?;
        *codes.get_mut(count).ok_or(Fault::NoRoom(field.place))? = code;
        count += 1;
    }
    Ok(count)
}

// Reads the record in each round, and answers the letters that the last one read, and a sum that takes in from each round how many
// letters it read and the code at the round's own place. That code is written over first, so that the round must write it again.
fn read_rounds(names: &[Vec<u8>], record: &[u8], rounds: usize, codes: &mut [u8]) -> Result<(usize, u64), Fault> {
    let mut count = 0;
    let mut sum = 0u64;
    for round in 0..rounds {
        if let Some(code) = codes.get_mut(round) {
            *code = 255;
        }
        count = read_record(names, record, codes)?;
        let code = codes.get(round).copied().unwrap_or(0);
        sum = sum.wrapping_add(count as u64).wrapping_add(u64::from(code));
    }
    Ok((count, sum))
}

fn main() -> Result<(), Box<dyn Error>> {
    let words: Vec<String> = env::args().skip(1).collect();
    let [list, record, rounds] = words.as_slice() else {
        return Err("expected LIST RECORD ROUNDS".into());
    };
    let rounds = rounds.parse()?;
    let names = read_names(&fs::read(list)?)?;
    let record = fs::read(record)?;
    let mut codes = vec![0; MOST_LETTERS];
    let start = Instant::now();
    let (count, sum) = read_rounds(&names, &record, rounds, &mut codes)?;
    let nanoseconds = start.elapsed().as_nanos();
    let checksum = codes[..count].iter().fold(sum, |sum, code| sum.wrapping_add(u64::from(*code)));
    println!("{count} letters, checksum {checksum}");
    eprintln!("{nanoseconds}");
    Ok(())
}
