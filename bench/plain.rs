//! What linking and verifying a program cost plain Rust, for `./x bench`: reads one program or shared object for AMD64, and writes the
//! SFrame section of its functions or compares one with them, of the usual call frame information alone. It checks no input, names no
//! fault, and stops by a panic where a file is unusual. Its times count only where its section is the one that `sf_tool` writes, and
//! where it tells the section of `sf_tool link` from one with another row: `./x bench` compares both.
//!
//!     plain link FORM OUT AT FILE          writes the section of the functions
//!     plain linkplt FORM OUT AT FILE       the same, with two functions for each plain lazy procedure linkage table
//!     plain verify FORM SECTION AT FILE    ends with 1 unless each function of a section has the rows that the file gives
//!
//! FORM is `whole`, which reads the whole file, or `parts`, which reads its header, its section headers, their names and the call
//! frame information.

use std::borrow::Cow;
use std::collections::HashMap;
use std::os::unix::fs::FileExt;
use std::{env, fs, process};

/// The bits of a function's information for a plain function, and for one of repeated blocks of 16 bytes.
const PLAIN: u32 = 0;
const BLOCKS: u32 = 0x10 | 16 << 8;

/// The instructions of a plain lazy procedure linkage table.
const PLT: [u8; 19] = [
    0x0e, 16, 0x46, 0x0e, 24, 0x4a, 0x0f, 11, 0x77, 8, 0x80, 0, 0x3f, 0x1a, 0x3b, 0x2a, 0x33, 0x24, 0x22,
];

/// The rules of a row that SFrame keeps.
#[derive(Clone, Copy, PartialEq)]
struct Columns {
    /// The register that the canonical frame address counts from: 7 is the stack pointer, 6 the frame pointer.
    base: u64,
    cfa: i64,
    /// Where the frame pointer is saved, from the canonical frame address on.
    frame_pointer: Option<i64>,
    return_address_saved: bool,
    expressible: bool,
}

const NO_COLUMNS: Columns = Columns {
    base: 0,
    cfa: 0,
    frame_pointer: None,
    return_address_saved: false,
    expressible: false,
};

/// A common information entry.
#[derive(Clone, Copy)]
struct Common {
    code_factor: u64,
    data_factor: i64,
    column: u64,
    encoding: u8,
    augmented: bool,
    signal: bool,
    initial: Columns,
}

/// What a record describes.
struct Described<'a> {
    start: u64,
    size: u64,
    /// Whether SFrame can express all rows.
    kept: bool,
    rows: &'a [(u64, Columns)],
    common: Common,
    instructions: &'a [u8],
}

/// A function whose rows lie in the list of all.
struct Function {
    start: u64,
    size: u32,
    rows: u32,
    place: u32,
    length: u32,
    information: u32,
}

/// Functions, and the bytes of their rows.
struct Linked {
    functions: Vec<Function>,
    stored: Vec<u8>,
}

/// A section that is read.
struct Section<'a> {
    bytes: &'a [u8],
    address: u64,
    count: usize,
    functions: usize,
    rows: usize,
}

/// Bytes that are read from the front.
#[derive(Clone, Copy)]
struct Reader<'a> {
    bytes: &'a [u8],
    place: usize,
}

impl<'a> Reader<'a> {
    fn array<const N: usize>(&mut self) -> [u8; N] {
        let bytes = self.bytes[self.place..self.place + N].try_into().unwrap();
        self.place += N;
        bytes
    }

    fn u8(&mut self) -> u8 {
        self.array::<1>()[0]
    }

    fn u16(&mut self) -> u16 {
        u16::from_le_bytes(self.array())
    }

    fn u32(&mut self) -> u32 {
        u32::from_le_bytes(self.array())
    }

    fn u64(&mut self) -> u64 {
        u64::from_le_bytes(self.array())
    }

    #[inline(always)]
    fn uleb(&mut self) -> u64 {
        let (mut number, mut shift) = (0, 0);
        loop {
            let byte = self.u8();
            number |= u64::from(byte & 0x7f) << shift;
            shift += 7;
            if byte < 0x80 {
                return number;
            }
        }
    }

    fn sleb(&mut self) -> i64 {
        let (mut number, mut shift) = (0, 0);
        loop {
            let byte = self.u8();
            number |= i64::from(byte & 0x7f) << shift;
            shift += 7;
            if byte < 0x80 {
                return if shift < 64 && byte & 0x40 != 0 {
                    number | -1 << shift
                } else {
                    number
                };
            }
        }
    }

    /// A number with a sign, of 1, 2 or 4 bytes.
    fn offset(&mut self, size: u8) -> i64 {
        match size {
            0 => i64::from(self.u8() as i8),
            1 => i64::from(self.u16() as i16),
            _ => i64::from(self.u32() as i32),
        }
    }

    /// A row, with its start.
    fn row(&mut self, row_type: u32) -> (u64, Columns) {
        let start = match row_type {
            0 => u64::from(self.u8()),
            1 => u64::from(self.u16()),
            _ => u64::from(self.u32()),
        };
        let information = self.u8();
        let size = information >> 5 & 3;
        let columns = Columns {
            base: 6 + u64::from(information & 1),
            cfa: self.offset(size),
            frame_pointer: (information >> 1 & 0x0f == 2).then(|| self.offset(size)),
            return_address_saved: true,
            expressible: true,
        };
        (start, columns)
    }

    fn pass(&mut self, count: u64) {
        self.place += count as usize;
    }

    /// A pointer, which counts from `field` where its encoding says so.
    fn pointer(&mut self, encoding: u8, field: u64) -> u64 {
        let number = match encoding & 0x0f {
            0x00 | 0x04 | 0x0c => self.u64(),
            0x03 => u64::from(self.u32()),
            0x0b => self.u32() as i32 as u64,
            format => panic!("pointer format {format:#x}"),
        };
        if encoding & 0x70 == 0x10 {
            number.wrapping_add(field)
        } else {
            number
        }
    }
}

fn at(bytes: &[u8], place: usize) -> Reader<'_> {
    Reader { bytes, place }
}

impl Columns {
    #[inline(always)]
    fn save(&mut self, register: u64, offset: i64) {
        match register {
            6 => self.frame_pointer = Some(offset),
            7 => self.expressible = false,
            16 => self.return_address_saved = offset == -8,
            _ => {}
        }
    }

    fn restore(&mut self, register: u64, initial: &Columns) {
        match register {
            6 => self.frame_pointer = initial.frame_pointer,
            16 => self.return_address_saved = initial.return_address_saved,
            _ => {}
        }
    }

    fn set_base(&mut self, register: u64) {
        self.base = register;
        self.expressible = register == 6 || register == 7;
    }
}

/// Runs instructions, and gives each row below `size` with its start. Returns the last columns.
#[inline(always)]
fn run(
    instructions: &[u8],
    common: &Common,
    size: u64,
    remembered: &mut Vec<Columns>,
    mut give: impl FnMut(u64, &Columns),
) -> Columns {
    let factor = common.data_factor;
    let mut columns = common.initial;
    let mut offset = 0;
    let mut left = at(instructions, 0);
    remembered.clear();
    while left.place < instructions.len() {
        let opcode = left.u8();
        let low = u64::from(opcode & 0x3f);
        let mut delta = 0;
        match opcode {
            0x40..=0x7f => delta = low,
            0x80..=0xbf => columns.save(low, left.uleb() as i64 * factor),
            0xc0..=0xff => columns.restore(low, &common.initial),
            0x00 => {}
            0x02 => delta = u64::from(left.u8()),
            0x03 => delta = u64::from(left.u16()),
            0x04 => delta = u64::from(left.u32()),
            0x05 => {
                let register = left.uleb();
                columns.save(register, left.uleb() as i64 * factor);
            }
            0x06 => columns.restore(left.uleb(), &common.initial),
            0x07 | 0x08 => columns.restore(left.uleb(), &NO_COLUMNS),
            0x0a => remembered.push(columns),
            0x0b => columns = remembered.pop().expect("a row is remembered"),
            0x0c => {
                columns.set_base(left.uleb());
                columns.cfa = left.uleb() as i64;
            }
            0x0d => columns.set_base(left.uleb()),
            0x0e => columns.cfa = left.uleb() as i64,
            0x0f => {
                let length = left.uleb();
                left.pass(length);
                columns.expressible = false;
            }
            0x10 | 0x16 => {
                columns.expressible &= !matches!(left.uleb(), 6 | 7 | 16);
                let length = left.uleb();
                left.pass(length);
            }
            0x11 => {
                let register = left.uleb();
                columns.save(register, left.sleb() * factor);
            }
            0x2e => drop(left.uleb()),
            _ => panic!("instruction {opcode:#x}"),
        }
        if delta != 0 {
            if offset < size {
                give(offset, &columns);
            }
            offset += delta * common.code_factor;
        }
    }
    if offset < size {
        give(offset, &columns);
    }
    columns
}

fn read_common(section: &[u8], place: usize) -> Common {
    let mut left = at(section, place);
    let end = place + 4 + left.u32() as usize;
    left.pass(4);
    let version = left.u8();
    let mut letters = left;
    while left.u8() != 0 {}
    let mut common = Common {
        code_factor: left.uleb(),
        data_factor: left.sleb(),
        column: if version == 1 { u64::from(left.u8()) } else { left.uleb() },
        encoding: 0,
        augmented: letters.u8() == b'z',
        signal: false,
        initial: NO_COLUMNS,
    };
    if common.augmented {
        let length = left.uleb();
        let mut data = left;
        left.pass(length);
        loop {
            match letters.u8() {
                0 => break,
                b'R' => common.encoding = data.u8(),
                b'L' => data.pass(1),
                b'S' => common.signal = true,
                b'P' => {
                    let encoding = data.u8();
                    data.pointer(encoding, 0);
                }
                letter => panic!("letter {letter:#x}"),
            }
        }
    }
    common.initial = run(&section[left.place..end], &common, 0, &mut Vec::new(), |_, _| {});
    common
}

/// Appends a row, in the least width of its offsets.
fn push_row(bytes: &mut Vec<u8>, row_type: u8, start: u64, columns: &Columns) {
    let saved = columns.frame_pointer.unwrap_or(0);
    let within = |most: i64| -most <= columns.cfa.min(saved) && columns.cfa.max(saved) < most;
    let size = if within(1 << 7) {
        0
    } else if within(1 << 15) {
        1
    } else {
        2
    };
    let count = 1 + u8::from(columns.frame_pointer.is_some());
    let mut row = [0; 16];
    let mut length = 1 << row_type;
    row[..4].copy_from_slice(&(start as u32).to_le_bytes());
    row[length] = u8::from(columns.base == 7) | count << 1 | size << 5;
    length += 1;
    for offset in [Some(columns.cfa), columns.frame_pointer].into_iter().flatten() {
        row[length..length + 4].copy_from_slice(&(offset as i32).to_le_bytes());
        length += 1 << size;
    }
    let before = bytes.len();
    bytes.extend_from_slice(&row);
    bytes.truncate(before + length);
}

/// Reads call frame information, and gives what each of its records describes.
fn read_records(section: &[u8], address: u64, mut give: impl FnMut(&Described<'_>)) {
    let mut commons = HashMap::new();
    let mut last = None;
    let mut remembered = Vec::new();
    let mut rows: Vec<(u64, Columns)> = Vec::new();
    let mut left = at(section, 0);
    while left.place < section.len() {
        let place = left.place;
        let end = place + 4 + left.u32() as usize;
        if end == place + 4 {
            break;
        }
        let back = left.u32() as usize;
        if back == 0 {
            commons.insert(place, read_common(section, place));
            left.place = end;
            continue;
        }
        let named = place + 4 - back;
        let common = match last {
            Some((place, common)) if place == named => common,
            _ => commons[&named],
        };
        last = Some((named, common));
        let field = address.wrapping_add(left.place as u64);
        let start = left.pointer(common.encoding, field);
        let size = left.pointer(common.encoding & 0x0f, 0);
        if common.augmented {
            let length = left.uleb();
            left.pass(length);
        }
        let mut kept = common.column == 16 && !common.signal && size != 0;
        let instructions = &section[left.place..end];
        rows.clear();
        run(instructions, &common, size, &mut remembered, |start, columns| {
            kept &= columns.expressible && columns.return_address_saved;
            if rows.last().is_none_or(|(_, before)| before != columns) {
                rows.push((start, *columns));
            }
        });
        left.place = end;
        give(&Described {
            start,
            size,
            kept,
            rows: &rows,
            common,
            instructions,
        });
    }
}

impl Described<'_> {
    /// Whether it is a plain lazy procedure linkage table.
    fn is_plt(&self) -> bool {
        let Common {
            column,
            signal,
            code_factor,
            initial,
            ..
        } = self.common;
        let is_usual = column == 16 && !signal && code_factor == 1 && self.start % 16 == 0 && self.size > 16;
        let is_row = initial.base == 7 && initial.expressible && initial.return_address_saved;
        let padding = self.instructions.strip_prefix(&PLT);
        is_usual && is_row && padding.is_some_and(|bytes| bytes.iter().all(|byte| *byte == 0))
    }
}

impl Linked {
    fn push(&mut self, start: u64, size: u64, shape: u32, rows: &[(u64, Columns)]) {
        let most = rows.last().map_or(0, |(start, _)| *start);
        let row_type = u8::from(most > 0xff) + u8::from(most > 0xffff);
        let place = self.stored.len();
        for (start, columns) in rows {
            push_row(&mut self.stored, row_type, *start, columns);
        }
        self.functions.push(Function {
            start,
            size: size as u32,
            rows: rows.len() as u32,
            place: place as u32,
            length: (self.stored.len() - place) as u32,
            information: shape | u32::from(row_type),
        });
    }

    /// Pushes the first entry of a procedure linkage table, and the others.
    fn push_plt(&mut self, plt: &Described<'_>) {
        let row = |start, cfa| {
            let columns = Columns {
                cfa,
                ..plt.common.initial
            };
            (start, columns)
        };
        self.push(plt.start, 16, PLAIN, &[row(0, 16), row(6, 24)]);
        self.push(plt.start + 16, plt.size - 16, BLOCKS, &[row(0, 8), row(11, 16)]);
    }

    /// The section's bytes.
    fn section(&mut self, address: u64) -> Vec<u8> {
        self.functions.sort_by_key(|function| function.start);
        let rows = self.functions.iter().map(|function| function.rows).sum();
        let size = 20 * self.functions.len();
        let mut bytes = Vec::with_capacity(28 + size + self.stored.len());
        bytes.extend_from_slice(&[0xe2, 0xde, 2, 5, 3, 0, 0xf8, 0]);
        for word in [self.functions.len() as u32, rows, self.stored.len() as u32, 0, size as u32] {
            bytes.extend_from_slice(&word.to_le_bytes());
        }
        let mut place = 0u32;
        for function in &self.functions {
            let distance = function.start.wrapping_sub(address.wrapping_add(bytes.len() as u64)) as i32;
            bytes.extend_from_slice(&distance.to_le_bytes());
            for word in [function.size, place, function.rows, function.information] {
                bytes.extend_from_slice(&word.to_le_bytes());
            }
            place += function.length;
        }
        for function in &self.functions {
            let place = function.place as usize;
            bytes.extend_from_slice(&self.stored[place..place + function.length as usize]);
        }
        bytes
    }
}

impl Section<'_> {
    fn read(bytes: &[u8], address: u64) -> Section<'_> {
        let mut header = at(bytes, 8);
        let count = header.u32() as usize;
        header.pass(8);
        Section {
            bytes,
            address,
            count,
            functions: 28 + header.u32() as usize,
            rows: 28 + header.u32() as usize,
        }
    }

    fn start(&self, number: usize) -> u64 {
        let place = self.functions + 20 * number;
        let distance = at(self.bytes, place).u32() as i32;
        self.address.wrapping_add(place as u64).wrapping_add(distance as u64)
    }

    /// The number of the function that begins at an address: often the next one.
    fn find(&self, start: u64, next: usize) -> Option<usize> {
        if next < self.count && self.start(next) == start {
            return Some(next);
        }
        let (mut low, mut high) = (0, self.count);
        while low < high {
            let middle = (low + high) / 2;
            if self.start(middle) < start {
                low = middle + 1;
            } else {
                high = middle;
            }
        }
        Some(low).filter(|number| *number < self.count && self.start(*number) == start)
    }

    /// Whether a function has these rows.
    fn agrees(&self, number: usize, described: &Described<'_>) -> bool {
        let mut entry = at(self.bytes, self.functions + 20 * number + 4);
        let [size, place, count, information] = [entry.u32(), entry.u32(), entry.u32(), entry.u32()];
        let mut left = at(self.bytes, self.rows + place as usize);
        u64::from(size) == described.size
            && count as usize == described.rows.len()
            && described.rows.iter().all(|row| left.row(information & 0x0f) == *row)
    }
}

/// A file that was read whole, or that is read where bytes of it are asked for.
enum Input {
    Whole(Vec<u8>),
    Parts(fs::File),
}

impl Input {
    fn open(form: &str, name: &str) -> Input {
        match form {
            "whole" => Input::Whole(fs::read(name).unwrap()),
            "parts" => Input::Parts(fs::File::open(name).unwrap()),
            _ => panic!("the second word is whole or parts"),
        }
    }

    fn bytes(&self, place: usize, size: usize) -> Cow<'_, [u8]> {
        match self {
            Input::Whole(bytes) => Cow::Borrowed(&bytes[place..place + size]),
            Input::Parts(file) => {
                let mut bytes = vec![0; size];
                file.read_exact_at(&mut bytes, place as u64).unwrap();
                Cow::Owned(bytes)
            }
        }
    }

    /// The bytes of a section, and its address, by its header.
    fn section(&self, mut header: Reader<'_>) -> (Cow<'_, [u8]>, u64) {
        header.pass(16);
        let (address, place, size) = (header.u64(), header.u64() as usize, header.u64() as usize);
        (self.bytes(place, size), address)
    }
}

/// Gives what each record of a file describes.
fn read_file(input: &Input, mut give: impl FnMut(&Described<'_>)) {
    let header = input.bytes(0, 64);
    let count = usize::from(at(&header, 60).u16());
    let headers = input.bytes(at(&header, 40).u64() as usize, 64 * count);
    let (names, _) = input.section(at(&headers, 64 * usize::from(at(&header, 62).u16())));
    for place in (0..count).map(|number| 64 * number) {
        let name = at(&headers, place).u32() as usize;
        if names[name..].starts_with(b".eh_frame\0") {
            let (bytes, address) = input.section(at(&headers, place));
            read_records(&bytes, address, &mut give);
        }
    }
}

fn link(input: &Input, with_plts: bool, address: u64) -> Vec<u8> {
    let mut linked = Linked {
        functions: Vec::new(),
        stored: Vec::new(),
    };
    read_file(input, |described| {
        if described.kept {
            linked.push(described.start, described.size, PLAIN, described.rows);
        } else if with_plts && described.is_plt() {
            linked.push_plt(described);
        }
    });
    linked.section(address)
}

/// Whether each function of a section has the rows that the file gives.
fn verify(input: &Input, bytes: &[u8], address: u64) -> bool {
    let section = Section::read(bytes, address);
    let (mut next, mut agreeing) = (0, 0);
    read_file(input, |described| {
        if let Some(number) = section.find(described.start, next).filter(|_| described.kept) {
            agreeing += usize::from(section.agrees(number, described));
            next = number + 1;
        }
    });
    agreeing == section.count
}

fn main() {
    let words: Vec<String> = env::args().collect();
    let [_, command, form, section, address, file] = &words[..] else {
        panic!("the words are COMMAND FORM SECTION AT FILE");
    };
    let address = u64::from_str_radix(address.trim_start_matches("0x"), 16).unwrap();
    let input = Input::open(form, file);
    match command.as_str() {
        "link" | "linkplt" => fs::write(section, link(&input, command == "linkplt", address)).unwrap(),
        "verify" => process::exit(i32::from(!verify(&input, &fs::read(section).unwrap(), address))),
        _ => panic!("the first word is link, linkplt or verify"),
    }
}
