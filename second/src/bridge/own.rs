//! This program's own `gateway` at a bridge, in one process: it is answered when it reads.

use super::{Bridge, Visitor};
use crate::desk::gateway;
use std::cell::RefCell;
use std::io::{self, BufReader, Read, Write};

/// This program's own visit.
pub struct Own;

/// What lies between the two: lines written and not yet taken, bytes answered and not yet read.
struct Way<'a, 'b> {
    bridge: &'a mut Bridge<'b>,
    written: Vec<u8>,
    answered: Vec<u8>,
    ended: bool,
}

impl Way<'_, '_> {
    /// The bridge takes the next line written, if there is one.
    fn take_line(&mut self) -> bool {
        let Some(end) = self.written.iter().position(|&byte| byte == b'\n') else {
            return false;
        };
        let line: Vec<u8> = self.written.drain(..=end).collect();
        let answer = self.bridge.take_line(&line);
        if !self.ended {
            self.answered.extend(answer.bytes);
            self.ended = answer.ends;
        }
        true
    }
}

struct Input<'a, 'b, 'c>(&'c RefCell<Way<'a, 'b>>);

impl Read for Input<'_, '_, '_> {
    fn read(&mut self, buffer: &mut [u8]) -> io::Result<usize> {
        let mut way = self.0.borrow_mut();
        while way.answered.is_empty() && !way.ended && way.take_line() {}
        let count = way.answered.len().min(buffer.len());
        buffer[..count].copy_from_slice(&way.answered[..count]);
        way.answered.drain(..count);
        Ok(count)
    }
}

struct Output<'a, 'b, 'c>(&'c RefCell<Way<'a, 'b>>);

impl Write for Output<'_, '_, '_> {
    fn write(&mut self, bytes: &[u8]) -> io::Result<usize> {
        self.0.borrow_mut().written.extend_from_slice(bytes);
        Ok(bytes.len())
    }

    fn flush(&mut self) -> io::Result<()> {
        Ok(())
    }
}

impl Visitor for Own {
    fn visit(&mut self, arguments: &[String], bridge: &mut Bridge) -> Result<Vec<u8>, String> {
        let way = RefCell::new(Way { bridge, written: Vec::new(), answered: Vec::new(), ended: false });
        let arguments: Vec<&str> = arguments.iter().map(String::as_str).collect();
        let mut results = Vec::new();
        let mut input = BufReader::new(Input(&way));
        gateway(&arguments, &mut input, &mut Output(&way), &mut results).map_err(|error| error.to_string())?;
        let mut way = way.into_inner();
        while way.take_line() {}
        Ok(results)
    }
}
