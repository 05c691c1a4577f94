//! Feeds read back: which call a line of the output belongs to.

use std::collections::HashMap;

use crate::boundary::{Call, Writer, KINDS};
use crate::feed::{
    Area, Change, AREAS, BYTES, FIRST_CALL, IMAGE, PADDING, SCRATCH, SETTINGS, TABLES,
};

/// The calls of a feed's input, in order; changed files are written out.
pub fn calls_of(input: &[u8]) -> Result<Vec<Call>, String> {
    let mut reading = Reading {
        rest: input,
        areas: HashMap::new(),
        bytes: Vec::new(),
    };
    let mut calls = Vec::new();
    loop {
        let record = reading.record()?;
        match record[0] {
            0 if reading.rest.is_empty() => return Ok(calls),
            0 => return Err("bytes behind the end".to_string()),
            kind if kind >= FIRST_CALL => calls.push(reading.call(record)?),
            _ => reading.lend(record)?,
        }
    }
}

/// A slot area: how many slots are lent, and what the first of them hold.
#[derive(Clone, Default)]
struct Slots {
    lent: usize,
    given: Vec<i32>,
}

/// What is left of an input, and what is lent so far.
struct Reading<'a> {
    rest: &'a [u8],
    /// By their kinds.
    areas: HashMap<usize, Slots>,
    /// A file and the zeros behind it.
    bytes: Vec<u8>,
}

impl<'a> Reading<'a> {
    fn take(&mut self, count: usize) -> Result<&'a [u8], String> {
        let parts = self.rest.split_at_checked(count);
        let (first, rest) = parts.ok_or("the input ends inside a call")?;
        self.rest = rest;
        Ok(first)
    }

    fn slots(&mut self, count: usize) -> Result<Vec<i32>, String> {
        let (words, _) = self.take(4 * count)?.as_chunks();
        Ok(words.iter().map(|&word| i32::from_be_bytes(word)).collect())
    }

    fn record(&mut self) -> Result<[usize; 4], String> {
        let mut record = [0; 4];
        for (word, slot) in record.iter_mut().zip(self.slots(4)?) {
            *word = slot as u32 as usize;
        }
        Ok(record)
    }

    /// Takes over what a record lends.
    fn lend(&mut self, [kind, lent, given, _]: [usize; 4]) -> Result<(), String> {
        if kind == BYTES {
            self.bytes = self.take(given)?.to_vec();
            return match self.bytes.iter().rev().take(PADDING).all(|&byte| byte == 0) {
                true if given >= PADDING => Ok(()),
                _ => Err("the bytes behind a file are not zero".to_string()),
            };
        }
        if AREAS.iter().all(|area| area.kind != kind) {
            return Err(format!("there is no kind {kind}"));
        }
        let given = self.slots(given)?;
        self.areas.insert(kind, Slots { lent, given });
        Ok(())
    }

    fn area(&self, area: Area) -> Slots {
        self.areas.get(&area.kind).cloned().unwrap_or_default()
    }

    fn writer(&self) -> Writer {
        Writer {
            settings: self.area(SETTINGS).given,
            tables: self.area(TABLES).given,
            samples: self.area(IMAGE).given,
            scratch: self.area(SCRATCH).lent,
        }
    }

    /// The call of a record, on what is lent.
    fn call(&self, record: [usize; 4]) -> Result<Call, String> {
        let [kind, _, _, length] = record;
        Ok(match KINDS.get(kind - FIRST_CALL) {
            Some(&"pack") => Call::Pack {
                writer: self.writer(),
                out: length,
            },
            Some(&"length") => Call::Length {
                writer: self.writer(),
            },
            Some(&"open") => Call::Open {
                file: self.changed(record)?,
                scratch: self.area(SCRATCH).lent,
                tables: self.area(TABLES).lent,
                image: self.area(IMAGE).lent,
                settings: self.area(SETTINGS).lent,
            },
            Some(&"look") => Call::Look {
                file: self.changed(record)?,
                settings: self.area(SETTINGS).lent,
            },
            _ => return Err(format!("there is no kind {kind}")),
        })
    }

    /// The file that was given, with the change of a call's record.
    fn changed(&self, [_, place, byte, length]: [usize; 4]) -> Result<Vec<u8>, String> {
        let most = self.bytes.len();
        if place >= most || byte > 255 || length > most {
            return Err("a change behind the bytes of its file".to_string());
        }
        let byte = byte as u8;
        let change = Change {
            place,
            byte,
            length,
        };
        Ok(change.apply(&self.bytes[..most - PADDING]))
    }
}
