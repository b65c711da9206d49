//! The causes 1 to 9, noted in one pass over the bytes of a sheet from front to back.

use std::collections::BTreeSet;

use crate::paper;
use crate::restated::spelling::settled;

/// The lowest number of those that apply to the sheet.
pub fn lowest_cause(sheet: &[u8]) -> Option<u32> {
    causes(sheet).first().copied()
}

/// The numbers that apply to the sheet.
pub fn causes(sheet: &[u8]) -> BTreeSet<u32> {
    let mut pass = Pass::default();
    for byte in sheet {
        pass.byte(*byte);
    }
    pass.end(sheet);
    pass.causes
}

/// Where the pass is, and what it has seen.
#[derive(Default)]
struct Pass {
    causes: BTreeSet<u32>,
    line: usize,
    field: usize,
    content: Vec<u8>,
    first_line_fields: usize,
    ones: usize,
    /// The names so far, each in the spelling that stands for it.
    permissions: BTreeSet<Vec<u8>>,
    users: BTreeSet<Vec<u8>>,
}

impl Pass {
    fn byte(&mut self, byte: u8) {
        match byte {
            b'\n' => self.end_line(),
            b',' => self.end_field(),
            b'A'..=b'Z' | b'a'..=b'z' | b'0'..=b'9' | b'-' | b'.' | b'_' => self.content.push(byte),
            _ => {
                self.note(true, 2);
                self.content.push(byte);
            }
        }
    }

    fn note(&mut self, applies: bool, cause: u32) {
        if applies {
            self.causes.insert(cause);
        }
    }

    fn end_field(&mut self) {
        let content = std::mem::take(&mut self.content);
        match (self.line, self.field) {
            (0, 0) => self.note(content != b"user", 3),
            (0, _) | (_, 0) => self.name(content),
            _ => self.cell(&content),
        }
        self.field += 1;
    }

    fn name(&mut self, name: Vec<u8>) {
        self.note(name.is_empty() || name.len() > paper::NAME_BYTES, 5);
        let names = if self.line == 0 { &mut self.permissions } else { &mut self.users };
        let is_new = names.insert(settled(&name));
        self.note(!is_new, 8);
    }

    fn cell(&mut self, content: &[u8]) {
        match content {
            b"0" => (),
            b"1" => self.ones += 1,
            _ => self.note(true, 7),
        }
    }

    fn end_line(&mut self) {
        self.end_field();
        let fields = std::mem::take(&mut self.field);
        if self.line == 0 {
            self.first_line_fields = fields;
            self.note(fields == 1 || fields > paper::PERMISSIONS + 1, 3);
        } else {
            self.note(fields != self.first_line_fields, 6);
        }
        self.line += 1;
    }

    fn end(&mut self, sheet: &[u8]) {
        self.note(sheet.len() > paper::SHEET_BYTES, 1);
        self.note(!sheet.ends_with(b"\n"), 2);
        self.note(self.line < 2 || self.line > paper::USERS + 1, 4);
        self.note(self.ones > paper::GRANTS, 9);
    }
}
