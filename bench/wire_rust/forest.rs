//! A scan of forests as one would write it by hand: whether a payload of version 1 or 2 spells one, and what it violates
//! first else, without a tree. `load FILE` prints how many bytes the file has, and `scan FILE` what they come to as a forest.

use std::fmt::{self, Display};
use std::{env, fs, process, str};

const MOST_NODES: usize = 64;
const LONGEST_TEXT: usize = 4096;
const TRUNCATED: u8 = 1;
const BAD_TAG: u8 = 2;
const BAD_TEXT: u8 = 3;
const NOT_CANONICAL: u8 = 4;
const TOO_DEEP: u8 = 5;
const TRAILING: u8 = 6;

/// What a payload violates: the number and the place.
struct Violation(u8, usize);

impl Display for Violation {
    fn fmt(&self, f: &mut fmt::Formatter<'_>) -> fmt::Result {
        write!(f, "refusal {} at {}", self.0, self.1)
    }
}

type Scan<T> = Result<T, Violation>;

struct Scanner<'a> {
    bytes: &'a [u8],
    at: usize,
    is_second: bool,
}

impl<'a> Scanner<'a> {
    fn take(&mut self, count: usize) -> Scan<&'a [u8]> {
        match self.bytes[self.at..].get(..count) {
            Some(taken) => {
                self.at += count;
                Ok(taken)
            }
            None => Err(Violation(TRUNCATED, self.bytes.len())),
        }
    }

    fn byte(&mut self) -> Scan<u8> {
        Ok(self.take(1)?[0])
    }

    fn number(&mut self) -> Scan<usize> {
        let taken = self.take(4)?;
        Ok(u32::from_be_bytes([taken[0], taken[1], taken[2], taken[3]]) as usize)
    }

    /// A number in so many groups of seven bits at most, the last of them below a bound.
    fn groups(&mut self, most: u32, bound: u8) -> Scan<u64> {
        let place = self.at;
        let mut number = 0;
        for group in 0..most {
            let byte = self.byte()?;
            let is_needless = byte == 0 && group > 0;
            if is_needless || group == most - 1 && byte >= bound {
                break;
            }
            number |= u64::from(byte & 127) << (7 * group);
            if byte < 128 {
                return Ok(number);
            }
        }
        Err(Violation(NOT_CANONICAL, place))
    }

    /// A number that is short in version 2.
    fn natural(&mut self) -> Scan<usize> {
        if self.is_second {
            return Ok(self.groups(5, 16)? as usize);
        }
        self.number()
    }

    fn int(&mut self) -> Scan<()> {
        if self.is_second {
            return self.groups(10, 2).map(|_| ());
        }
        self.take(8).map(|_| ())
    }

    fn truth(&mut self) -> Scan<()> {
        if self.byte()? > 1 {
            return Err(Violation(NOT_CANONICAL, self.at - 1));
        }
        Ok(())
    }

    fn text(&mut self) -> Scan<()> {
        let place = self.at;
        let length = self.natural()?;
        if length > LONGEST_TEXT || str::from_utf8(self.take(length)?).is_err() {
            return Err(Violation(BAD_TEXT, place));
        }
        Ok(())
    }

    fn bad_tag<T>(&self) -> Scan<T> {
        Err(Violation(BAD_TAG, self.at - 1))
    }

    fn value(&mut self) -> Scan<()> {
        match self.byte()? {
            1 => self.int(),
            2 => self.truth(),
            3 => self.text(),
            _ => self.bad_tag(),
        }
    }

    fn nodes(&mut self, levels: usize) -> Scan<()> {
        for _ in 0..self.number()? {
            self.node(levels)?;
        }
        Ok(())
    }

    fn entry(&mut self, levels: usize) -> Scan<()> {
        match self.byte()? {
            0x31 => self.value(),
            0x32 => {
                self.truth()?;
                self.node(levels)
            }
            0x33 => self.nodes(levels),
            _ => self.bad_tag(),
        }
    }

    fn node(&mut self, levels: usize) -> Scan<()> {
        if levels == 0 {
            self.byte()?;
            return Err(Violation(TOO_DEEP, self.at - 1));
        }
        for _ in 0..self.number()? {
            self.entry(levels - 1)?;
        }
        self.end()
    }

    fn end(&mut self) -> Scan<()> {
        match self.byte()? {
            0 => Ok(()),
            1 => {
                self.natural()?;
                self.natural()?;
                match self.byte()? {
                    8 => self.text(),
                    1..=12 => Ok(()),
                    _ => self.bad_tag(),
                }
            }
            _ => self.bad_tag(),
        }
    }

    fn forest(&mut self) -> Scan<()> {
        if !matches!(self.byte()?, 1 | 2) {
            return self.bad_tag();
        }
        self.node(MOST_NODES)?;
        if self.at < self.bytes.len() {
            return Err(Violation(TRAILING, self.at));
        }
        Ok(())
    }
}

fn main() {
    let words: Vec<String> = env::args().skip(1).collect();
    let [what, path] = words.as_slice() else {
        eprintln!("usage: forest load|scan FILE");
        process::exit(2);
    };
    let bytes = fs::read(path).expect("the file can't be read");
    let count = bytes.len();
    match what.as_str() {
        "load" => println!("{count} bytes"),
        _ => match (Scanner {
            bytes: &bytes,
            at: 0,
            is_second: bytes.first() == Some(&2),
        })
        .forest()
        {
            Ok(()) => println!("valid, {count} bytes"),
            Err(violation) => println!("{violation}, {count} bytes"),
        },
    }
}
