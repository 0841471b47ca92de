//! A decoder of scripts as one would write it by hand: a payload of version 1 or 2 becomes a tree of boxes and vectors, which is
//! then checked. The texts of a pool are shared.
//! `load FILE` prints how many bytes the file has, `decode FILE` what they come to as a script, and `json FILE` writes the
//! script as JSON.

mod script_json;
mod script_rules;

use std::collections::HashSet;
use std::fmt::{self, Display};
use std::io;
use std::rc::Rc;

const MOST_BLOCKS: usize = 64;
const MOST_EXPRS: usize = 256;
const LONGEST_TEXT: usize = 4096;
const MOST_ITEMS: usize = 1000;

enum Value {
    Int(i64),
    Bool(bool),
    Text(Rc<str>),
    List(Vec<Value>),
}

enum Expr {
    Literal(Value),
    Input(u8),
    Variable(u32),
    Root,
    Unary(u8, u32, Box<Expr>),
    Binary(u8, u32, Box<Expr>, Box<Expr>),
    Call {
        at: u32,
        kind: u8,
        method: Rc<str>,
        target: Box<Expr>,
        args: Vec<Expr>,
    },
}

struct Step {
    id: u32,
    at: u32,
    form: Form,
}

enum Form {
    Do(Expr),
    Keep(Expr),
    Let {
        variable: u32,
        keep: bool,
        value: Expr,
    },
    If(Expr, Vec<Step>, Vec<Step>),
    Each {
        variable: u32,
        keep: bool,
        rows: Expr,
        body: Vec<Step>,
    },
    Over {
        variable: u32,
        input: u8,
        body: Vec<Step>,
    },
}

struct Script {
    inputs: Vec<Value>,
    body: Vec<Step>,
}

/// What a payload violates: the number and the place.
struct Refusal(u8, usize);

impl Display for Refusal {
    fn fmt(&self, f: &mut fmt::Formatter<'_>) -> fmt::Result {
        write!(f, "refusal {} at {}", self.0, self.1)
    }
}

type Read<T> = Result<T, Refusal>;

/// What is read of a payload, and in version 2 the texts of its pool, how many of them were used, and how many items lists may
/// still have.
struct Reader<'a> {
    bytes: &'a [u8],
    at: usize,
    is_second: bool,
    texts: Vec<Rc<str>>,
    used: usize,
    room: usize,
}

fn is_name(bytes: &[u8]) -> bool {
    let begins = |b: &u8| b.is_ascii_alphabetic() || *b == b'_';
    bytes.first().is_some_and(begins)
        && bytes
            .iter()
            .all(|b| b.is_ascii_alphanumeric() || *b == b'_')
}

impl<'a> Reader<'a> {
    fn new(bytes: &'a [u8]) -> Reader<'a> {
        Reader {
            bytes,
            at: 0,
            is_second: bytes.first() == Some(&2),
            texts: Vec::new(),
            used: 0,
            room: MOST_ITEMS,
        }
    }

    fn take(&mut self, count: usize) -> Read<&'a [u8]> {
        match self.bytes[self.at..].get(..count) {
            Some(taken) => {
                self.at += count;
                Ok(taken)
            }
            None => Err(Refusal(1, self.bytes.len())),
        }
    }

    fn byte(&mut self) -> Read<u8> {
        Ok(self.take(1)?[0])
    }

    /// A number in so many groups of seven bits at most, the last of them below a bound.
    fn groups(&mut self, most: u32, bound: u8) -> Read<u64> {
        let start = self.at;
        let mut number = 0;
        for place in 0..most {
            let group = self.byte()?;
            let is_needless = group == 0 && place > 0;
            if is_needless || place == most - 1 && group >= bound {
                break;
            }
            number |= u64::from(group & 127) << (7 * place);
            if group < 128 {
                return Ok(number);
            }
        }
        Err(Refusal(4, start))
    }

    fn number(&mut self) -> Read<u32> {
        if self.is_second {
            return Ok(self.groups(5, 16)? as u32);
        }
        Ok(u32::from_be_bytes(self.take(4)?.try_into().unwrap()))
    }

    fn int(&mut self) -> Read<i64> {
        if self.is_second {
            let folded = self.groups(10, 2)?;
            return Ok((folded >> 1) as i64 ^ -((folded & 1) as i64));
        }
        Ok(i64::from_be_bytes(self.take(8)?.try_into().unwrap()))
    }

    /// The texts of the pool, each of which stands once.
    fn pool(&mut self) -> Read<()> {
        let mut earlier = HashSet::new();
        for _ in 0..self.number()? {
            let start = self.at;
            let count = self.number()? as usize;
            let Ok(text) = std::str::from_utf8(self.take(count)?) else {
                return Err(Refusal(3, start));
            };
            if !earlier.insert(text) {
                return Err(Refusal(7, start));
            }
            self.texts.push(text.into());
        }
        Ok(())
    }

    /// The text of the pool at a place, which passes a test.
    fn pooled(&mut self, test: fn(&str) -> bool) -> Read<Rc<str>> {
        let start = self.at;
        let place = self.number()? as usize;
        if place >= self.texts.len() || place > self.used {
            return Err(Refusal(7, start));
        }
        if !test(&self.texts[place]) {
            return Err(Refusal(3, start));
        }
        self.used = self.used.max(place + 1);
        Ok(self.texts[place].clone())
    }

    fn truth(&mut self) -> Read<bool> {
        match self.byte()? {
            0 => Ok(false),
            1 => Ok(true),
            _ => Err(Refusal(4, self.at - 1)),
        }
    }

    /// A byte from one number to another.
    fn tag(&mut self, least: u8, most: u8) -> Read<u8> {
        match self.byte()? {
            byte if least <= byte && byte <= most => Ok(byte),
            _ => Err(Refusal(2, self.at - 1)),
        }
    }

    fn text(&mut self) -> Read<Rc<str>> {
        if self.is_second {
            return self.pooled(|text| text.len() <= LONGEST_TEXT);
        }
        let start = self.at;
        let count = self.number()? as usize;
        if count > LONGEST_TEXT {
            return Err(Refusal(3, start));
        }
        match std::str::from_utf8(self.take(count)?) {
            Ok(text) => Ok(text.into()),
            Err(_) => Err(Refusal(3, start)),
        }
    }

    fn name(&mut self) -> Read<Rc<str>> {
        if self.is_second {
            return self.pooled(|text| is_name(text.as_bytes()));
        }
        let start = self.at;
        let count = self.number()? as usize;
        let name = self.take(count)?;
        if !is_name(name) {
            return Err(Refusal(3, start));
        }
        Ok(std::str::from_utf8(name).unwrap().into())
    }

    fn value_of(&mut self, tag: u8) -> Read<Value> {
        match tag {
            1 => Ok(Value::Int(self.int()?)),
            2 => Ok(Value::Bool(self.truth()?)),
            _ => Ok(Value::Text(self.text()?)),
        }
    }

    fn value(&mut self) -> Read<Value> {
        let tag = self.tag(1, 3)?;
        self.value_of(tag)
    }

    /// The value of an input, which in version 2 may be a list.
    fn input(&mut self) -> Read<Value> {
        let tag = self.tag(1, if self.is_second { 4 } else { 3 })?;
        if tag < 4 {
            return self.value_of(tag);
        }
        let start = self.at;
        let count = self.number()? as usize;
        if count > self.room {
            return Err(Refusal(8, start));
        }
        self.room -= count;
        let items = (0..count)
            .map(|_| self.value())
            .collect::<Read<Vec<Value>>>()?;
        Ok(Value::List(items))
    }

    /// What may stand within so many others; where that is too deep, its first byte is refused.
    fn depth(&mut self, left: usize) -> Read<usize> {
        if left == 0 {
            self.take(1)?;
            return Err(Refusal(5, self.at - 1));
        }
        Ok(left - 1)
    }

    fn expr(&mut self, left: usize) -> Read<Expr> {
        let left = self.depth(left)?;
        match self.tag(0x20, 0x26)? {
            0x20 => Ok(Expr::Literal(self.value()?)),
            0x21 => Ok(Expr::Input(self.byte()?)),
            0x22 => Ok(Expr::Variable(self.number()?)),
            0x23 => Ok(Expr::Root),
            0x24 => Ok(Expr::Unary(
                self.tag(1, 4)?,
                self.number()?,
                Box::new(self.expr(left)?),
            )),
            0x25 => {
                let (op, at) = (self.tag(1, 13)?, self.number()?);
                Ok(Expr::Binary(
                    op,
                    at,
                    Box::new(self.expr(left)?),
                    Box::new(self.expr(left)?),
                ))
            }
            _ => {
                let (at, kind, method) = (self.number()?, self.tag(0, 8)?, self.name()?);
                let target = Box::new(self.expr(left)?);
                let count = self.number()?;
                let mut args = Vec::new();
                for _ in 0..count {
                    args.push(self.expr(left)?);
                }
                Ok(Expr::Call {
                    at,
                    kind,
                    method,
                    target,
                    args,
                })
            }
        }
    }

    fn block(&mut self, left: usize) -> Read<Vec<Step>> {
        let left = self.depth(left)?;
        let count = self.number()?;
        let mut steps = Vec::new();
        for _ in 0..count {
            steps.push(self.step(left)?);
        }
        Ok(steps)
    }

    fn step(&mut self, left: usize) -> Read<Step> {
        let tag = self.tag(0x10, if self.is_second { 0x15 } else { 0x14 })?;
        let (id, at) = (self.number()?, self.number()?);
        let form = match tag {
            0x10 => Form::Do(self.expr(MOST_EXPRS)?),
            0x11 => Form::Keep(self.expr(MOST_EXPRS)?),
            0x12 => {
                let (variable, keep) = (self.number()?, self.truth()?);
                Form::Let {
                    variable,
                    keep,
                    value: self.expr(MOST_EXPRS)?,
                }
            }
            0x13 => Form::If(self.expr(MOST_EXPRS)?, self.block(left)?, self.block(left)?),
            0x15 => Form::Over {
                variable: self.number()?,
                input: self.byte()?,
                body: self.block(left)?,
            },
            _ => {
                let (variable, keep) = (self.number()?, self.truth()?);
                let rows = self.expr(MOST_EXPRS)?;
                Form::Each {
                    variable,
                    keep,
                    rows,
                    body: self.block(left)?,
                }
            }
        };
        Ok(Step { id, at, form })
    }

    fn script(&mut self) -> Read<Script> {
        self.tag(1, 2)?;
        if self.is_second {
            self.pool()?;
        }
        let count = self.byte()?;
        let inputs = (0..count)
            .map(|_| self.input())
            .collect::<Read<Vec<Value>>>()?;
        let body = self.block(MOST_BLOCKS)?;
        if self.used < self.texts.len() {
            return Err(Refusal(7, self.at));
        }
        if self.at < self.bytes.len() {
            return Err(Refusal(6, self.at));
        }
        Ok(Script { inputs, body })
    }
}

fn decode(payload: &[u8]) -> Read<Script> {
    let script = Reader::new(payload).script()?;
    script_rules::check(&script)?;
    Ok(script)
}

fn main() -> io::Result<()> {
    let words: Vec<String> = std::env::args().collect();
    let payload = std::fs::read(&words[2])?;
    match words[1].as_str() {
        "load" => println!("{} bytes", payload.len()),
        "decode" => match decode(&payload) {
            Ok(_) => println!("valid, {} bytes", payload.len()),
            Err(refusal) => println!("{refusal}, {} bytes", payload.len()),
        },
        _ => script_json::write(&payload)?,
    }
    Ok(())
}
