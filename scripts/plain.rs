//! The program that `scripts/bench` measures `qed` against: its default transform, run and campaign in plain Rust, from docs/PROFILE.md and FORMATS.md.
//!
//!     plain transform IN OUT | plain run IN STEPS | plain campaign IN SEED COUNT

use std::{env, fmt::Write, fs, process::exit};

// ---- instructions

#[derive(Clone, Copy, PartialEq, Debug)]
#[rustfmt::skip]
enum Op {
    Unknown, Fetch, Bad, Zero, Lui, Auipc, Jal, Jalr, Fence, Ecall, Ebreak, Beq, Bne, Blt, Bge, Bltu, Bgeu, Lb, Lh, Lw, Ld, Lbu, Lhu, Lwu, Sb, Sh, Sw, Sd,
    Addi, Slti, Sltiu, Xori, Ori, Andi, Slli, Srli, Srai, Addiw, Slliw, Srliw, Sraiw, Add, Sub, Sll, Slt, Sltu, Xor, Srl, Sra, Or, And,
    Addw, Subw, Sllw, Srlw, Sraw, Mul, Mulh, Mulhsu, Mulhu, Div, Divu, Rem, Remu, Mulw, Divw, Divuw, Remw, Remuw,
}
use Op::*;

#[derive(Clone, Copy)]
struct Ins {
    op: Op,
    rd: u8,
    rs1: u8,
    rs2: u8,
    imm: i32,
}

#[derive(Clone, Copy, PartialEq)]
enum Group {
    Upper,
    Branch,
    Load,
    Store,
    Immediate,
    Register,
    Other,
}

fn group(op: Op) -> Group {
    match op {
        Lui | Auipc => Group::Upper,
        Beq | Bne | Blt | Bge | Bltu | Bgeu => Group::Branch,
        Lb | Lh | Lw | Ld | Lbu | Lhu | Lwu => Group::Load,
        Sb | Sh | Sw | Sd => Group::Store,
        op if op as u8 >= Add as u8 => Group::Register,
        op if op as u8 >= Addi as u8 => Group::Immediate,
        _ => Group::Other,
    }
}

fn op_of(w: u32) -> Op {
    let (f3, f7) = ((w >> 12 & 7) as usize, w >> 25);
    match w & 0x7f {
        0x37 => Lui,
        0x17 => Auipc,
        0x6f => Jal,
        0x67 if f3 == 0 => Jalr,
        0x0f if f3 == 0 => Fence,
        0x63 => [Beq, Bne, Bad, Bad, Blt, Bge, Bltu, Bgeu][f3],
        0x03 => [Lb, Lh, Lw, Ld, Lbu, Lhu, Lwu, Bad][f3],
        0x23 => [Sb, Sh, Sw, Sd, Bad, Bad, Bad, Bad][f3],
        0x13 => match (f3, f7 >> 1) {
            (1, 0) => Slli,
            (5, 0) => Srli,
            (5, 0x10) => Srai,
            (1 | 5, _) => Bad,
            _ => [Addi, Bad, Slti, Sltiu, Xori, Bad, Ori, Andi][f3],
        },
        0x1b => match (f3, f7) {
            (0, _) => Addiw,
            (1, 0) => Slliw,
            (5, 0) => Srliw,
            (5, 0x20) => Sraiw,
            _ => Bad,
        },
        0x33 => match f7 {
            0 => [Add, Sll, Slt, Sltu, Xor, Srl, Or, And][f3],
            1 => [Mul, Mulh, Mulhsu, Mulhu, Div, Divu, Rem, Remu][f3],
            0x20 => [Sub, Bad, Bad, Bad, Bad, Sra, Bad, Bad][f3],
            _ => Bad,
        },
        0x3b => match f7 {
            0 => [Addw, Sllw, Bad, Bad, Bad, Srlw, Bad, Bad][f3],
            1 => [Mulw, Bad, Bad, Bad, Divw, Divuw, Remw, Remuw][f3],
            0x20 => [Subw, Bad, Bad, Bad, Bad, Sraw, Bad, Bad][f3],
            _ => Bad,
        },
        _ if w == 0x73 => Ecall,
        _ if w == 0x0010_0073 => Ebreak,
        _ if w == 0 => Zero,
        _ => Bad,
    }
}

fn decode(w: u32) -> Ins {
    let op = op_of(w);
    let s = w as i32;
    let (mut rd, mut rs1, mut rs2) = ((w >> 7 & 31) as u8, (w >> 15 & 31) as u8, (w >> 20 & 31) as u8);
    let mut imm = s >> 20;
    match group(op) {
        Group::Upper => (rs1, rs2, imm) = (0, 0, s & !0xfff),
        Group::Branch => {
            imm = s >> 31 << 12 | (s << 4 & 0x800) | (s >> 20 & 0x7e0) | (s >> 7 & 0x1e);
            rd = 0;
        }
        Group::Store => {
            imm = (s >> 25 << 5) | rd as i32;
            rd = 0;
        }
        Group::Register => imm = 0,
        Group::Other if op == Jal => {
            imm = s >> 31 << 20 | (s & 0xff000) | (s >> 9 & 0x800) | (s >> 20 & 0x7fe);
            (rs1, rs2) = (0, 0);
        }
        Group::Other if op != Jalr && op != Fence => (rd, rs1, rs2, imm) = (0, 0, 0, 0),
        _ => rs2 = 0,
    }
    match op {
        Slli | Srli | Srai => imm &= 63,
        Slliw | Srliw | Sraiw => imm &= 31,
        _ => {}
    }
    Ins { op, rd, rs1, rs2, imm }
}

fn is_end(op: Op) -> bool {
    matches!(op, Jal | Jalr | Ecall | Zero) || group(op) == Group::Branch
}

// ---- files

struct Seg<'a> {
    kind: u64,
    flags: u64,
    vaddr: u64,
    memsz: u64,
    data: &'a [u8],
}

struct Sec {
    name: usize,
    kind: u64,
    flags: u64,
    addr: u64,
    off: usize,
    size: usize,
    link: usize,
    info: usize,
    entsize: u64,
}

struct Sym<'a> {
    name: &'a [u8],
    info: u8,
    other: u8,
    shndx: u16,
    value: u64,
    size: u64,
}

struct File<'a> {
    entry: u64,
    flags: u64,
    segs: Vec<Seg<'a>>,
    secs: Vec<Sec>,
    syms: Vec<Sym<'a>>,
    named: Vec<u64>,
}

fn refuse(why: &str) -> ! {
    println!("refused {why}");
    exit(3)
}

fn number(d: &[u8], at: usize, n: usize) -> u64 {
    d[at..at + n].iter().rev().fold(0, |v, b| v << 8 | *b as u64)
}

fn part(d: &[u8], off: u64, size: u64) -> &[u8] {
    match off.checked_add(size) {
        Some(end) if end <= d.len() as u64 => &d[off as usize..end as usize],
        _ => refuse("E8"),
    }
}

fn name_at(table: &[u8], at: usize) -> &[u8] {
    match table.get(at..).and_then(|rest| rest.iter().position(|b| *b == 0)) {
        Some(n) => &table[at..at + n],
        None => refuse("E12"),
    }
}

fn read(d: &[u8]) -> File<'_> {
    if d.len() < 64 || &d[..7] != b"\x7fELF\x02\x01\x01" || number(d, 16, 2) != 2 || number(d, 18, 2) != 243 || number(d, 20, 4) != 1 {
        refuse("E1");
    }
    let (phoff, shoff) = (number(d, 32, 8), number(d, 40, 8));
    let (phnum, shnum, names) = (number(d, 56, 2), number(d, 60, 2), number(d, 62, 2) as usize);
    let heads = part(d, phoff, 56 * phnum);
    let segs: Vec<Seg> = heads
        .chunks_exact(56)
        .map(|h| {
            let load = number(h, 0, 4) == 1;
            let (filesz, memsz) = (number(h, 32, 8), number(h, 40, 8));
            if load && (filesz > memsz || number(h, 16, 8).checked_add(memsz).is_none()) {
                refuse("E9");
            }
            let data = if load { part(d, number(h, 8, 8), filesz) } else { &[] };
            Seg { kind: number(h, 0, 4), flags: number(h, 4, 4), vaddr: number(h, 16, 8), memsz, data }
        })
        .collect();
    let secs: Vec<Sec> = part(d, shoff, 64 * shnum)
        .chunks_exact(64)
        .map(|h| Sec {
            name: number(h, 0, 4) as usize,
            kind: number(h, 4, 4),
            flags: number(h, 8, 8),
            addr: number(h, 16, 8),
            off: number(h, 24, 8) as usize,
            size: number(h, 32, 8) as usize,
            link: number(h, 40, 4) as usize,
            info: number(h, 44, 4) as usize,
            entsize: number(h, 56, 8),
        })
        .collect();
    for s in &secs {
        if s.kind != 0 && s.kind != 8 && s.size > 0 {
            part(d, s.off as u64, s.size as u64);
        }
    }
    let mut order: Vec<&Seg> = segs.iter().filter(|s| s.kind == 1 && s.memsz > 0).collect();
    order.sort_by_key(|s| s.vaddr);
    if order.windows(2).any(|w| w[0].vaddr + w[0].memsz > w[1].vaddr) {
        refuse("E10");
    }
    let bytes = |s: &Sec| if s.kind == 0 || s.kind == 8 { &d[..0] } else { &d[s.off..s.off + s.size] };
    if shnum > 0 && names != 0 {
        let table = bytes(&secs[names]);
        for s in secs.iter().filter(|s| s.name != 0) {
            name_at(table, s.name);
        }
    }
    let mut file = File { entry: number(d, 24, 8), flags: number(d, 48, 4), segs, syms: Vec::new(), named: Vec::new(), secs };
    let Some(at) = file.secs.iter().position(|s| s.kind == 2) else { return file };
    let table = &file.secs[at];
    if table.entsize != 24 || table.link >= file.secs.len() || file.secs[table.link].kind != 3 {
        refuse("E12");
    }
    let strings = bytes(&file.secs[table.link]);
    let first = bytes(table).chunks_exact(24).enumerate();
    file.syms = first
        .map(|(k, s)| {
            let name = if k == 0 || number(s, 0, 4) == 0 { &d[..0] } else { name_at(strings, number(s, 0, 4) as usize) };
            Sym { name, info: s[4], other: s[5], shndx: number(s, 6, 2) as u16, value: number(s, 8, 8), size: number(s, 16, 8) }
        })
        .collect();
    for s in &file.secs {
        if s.kind != 4 || s.info >= file.secs.len() || s.link != at || file.secs[s.info].flags & 2 == 0 {
            continue;
        }
        for r in bytes(s).chunks_exact(24) {
            let (kind, symbol) = (number(r, 8, 4), number(r, 12, 4) as usize);
            if symbol >= file.syms.len() {
                refuse("E13");
            }
            if matches!(kind, 1 | 2 | 16..=19 | 23 | 26..=28) {
                file.named.push(file.syms[symbol].value.wrapping_add(number(r, 16, 8)));
            }
        }
    }
    file
}

fn loads<'a, 'b>(file: &'b File<'a>) -> Vec<&'b Seg<'a>> {
    let mut all: Vec<&Seg> = file.segs.iter().filter(|s| s.kind == 1 && s.memsz > 0).collect();
    all.sort_by_key(|s| s.vaddr);
    all
}

/// The code ranges, ascending and joined.
fn code_ranges(file: &File) -> Vec<(u64, u64)> {
    let run: Vec<(u64, u64)> = loads(file).iter().filter(|s| s.flags & 1 != 0).map(|s| (s.vaddr, s.vaddr + s.memsz)).collect();
    let held = |a, b| run.iter().any(|r| r.0 <= a && b <= r.1);
    let secs = file.secs.iter().filter(|s| s.flags & 6 == 6 && s.size > 0);
    let mut found: Vec<(u64, u64)> = secs.map(|s| (s.addr, s.addr.saturating_add(s.size as u64))).filter(|r| held(r.0, r.1)).collect();
    if found.is_empty() {
        found = run;
    }
    found.sort();
    let mut joined: Vec<(u64, u64)> = Vec::new();
    for r in found {
        match joined.last_mut() {
            Some(last) if r.0 <= last.1 => last.1 = last.1.max(r.1),
            _ => joined.push(r),
        }
    }
    joined
}

// ---- the default transform

struct Range {
    start: u64,
    end: u64,
    flags: u64,
    segs: Vec<usize>,
}

struct Test {
    base: u64,
    distance: u64,
    code: Vec<(u64, Vec<(u32, Ins)>)>,
    data: Vec<Range>,
}

impl Test {
    fn place(&self, a: u64) -> Option<(usize, usize)> {
        let at = self.code.partition_point(|c| c.0 <= a).checked_sub(1)?;
        let k = (a - self.code[at].0) / 4;
        (a % 4 == 0 && k < self.code[at].1.len() as u64).then_some((at, k as usize))
    }

    fn words(&self) -> u64 {
        self.data.iter().map(|r| (r.end - r.start) / 8).sum()
    }
}

fn admit(file: &File) -> Test {
    let image = loads(file);
    if file.flags & 1 != 0 || file.segs.iter().any(|s| s.kind == 2 || s.kind == 3) || image.iter().any(|s| s.flags & 3 == 3) {
        refuse("A1");
    }
    let ranges = code_ranges(file);
    if file.entry % 4 != 0 || !ranges.iter().any(|r| r.0 <= file.entry && file.entry < r.1) {
        refuse("A4");
    }
    let base = image[0].vaddr / 4096 * 4096;
    let end = image.last().map_or(0, |s| s.vaddr + s.memsz);
    let mut code = Vec::new();
    for (start, end) in ranges {
        let seg = image[image.partition_point(|s| s.vaddr <= start) - 1];
        let at = (start - seg.vaddr) as usize;
        let mut words = Vec::with_capacity((end - start) as usize / 4);
        for k in (at..at + (end - start) as usize).step_by(4) {
            let word = if k + 4 <= seg.data.len() { number(seg.data, k, 4) as u32 } else { 0 };
            let ins = decode(word);
            if ins.op == Bad || ins.op == Ebreak {
                refuse("A6");
            }
            if ins.op != Fence && (ins.rd > 13 || ins.rs1 > 13 || ins.rs2 > 13) {
                refuse("A7");
            }
            words.push((word, ins));
        }
        code.push((start, words));
    }
    let mut data: Vec<Range> = Vec::new();
    let run: Vec<&&Seg> = image.iter().filter(|s| s.flags & 1 != 0).collect();
    for (k, s) in image.iter().enumerate() {
        let (start, end) = (s.vaddr / 8 * 8, (s.vaddr + s.memsz).div_ceil(8) * 8);
        if s.flags & 2 == 0 && (s.flags & 1 != 0 || run.iter().any(|r| r.vaddr / 8 * 8 < end && start < (r.vaddr + r.memsz).div_ceil(8) * 8)) {
            continue;
        }
        match data.last_mut() {
            Some(last) if start <= last.end => {
                last.end = last.end.max(end);
                last.flags |= s.flags;
                last.segs.push(k);
            }
            _ => data.push(Range { start, end, flags: s.flags, segs: vec![k] }),
        }
    }
    let distance = (end - base).div_ceil(4096) * 4096;
    if distance > 64 << 20 {
        refuse("L2");
    }
    Test { base, distance, code, data }
}

struct Block<'a> {
    start: u64,
    body: &'a [(u32, Ins)],
    end: Option<Ins>,
}

fn blocks<'a>(file: &File, test: &'a Test) -> Vec<Block<'a>> {
    let mut leads: Vec<Vec<bool>> = test.code.iter().map(|c| vec![false; c.1.len()]).collect();
    let mut lead = |a: u64| {
        if let Some((c, k)) = test.place(a) {
            leads[c][k] = true;
        }
    };
    lead(file.entry);
    file.named.iter().for_each(|a| lead(*a));
    file.syms.iter().filter(|s| s.shndx != 0 && matches!(s.info & 15, 0 | 2)).for_each(|s| lead(s.value));
    let mut indirect = false;
    for (start, words) in &test.code {
        for (k, (_, i)) in words.iter().enumerate() {
            let at = start + 4 * k as u64;
            if group(i.op) == Group::Branch || i.op == Jal {
                lead(at.wrapping_add(i.imm as u64));
            }
            if is_end(i.op) {
                lead(at + 4);
            }
            indirect |= i.op == Jalr;
        }
    }
    let mut found = Vec::new();
    for ((start, words), leads) in test.code.iter().zip(&leads) {
        let mut from = 0;
        while from < words.len() {
            let at = start + 4 * from as u64;
            if leads[from] {
                let mut to = from;
                while to < words.len() && !is_end(words[to].1.op) && (to == from || !leads[to]) {
                    to += 1;
                }
                let end = (to < words.len() && (to == from || !leads[to])).then(|| words[to].1);
                found.push(Block { start: at, body: &words[from..to], end });
                // With an indirect jump each word has an entry, also within blocks.
                from = if indirect { from + 1 } else { to.max(from + 1) };
            } else {
                if indirect {
                    let i = words[from].1;
                    let body = if is_end(i.op) { &words[from..from] } else { &words[from..from + 1] };
                    found.push(Block { start: at, body, end: is_end(i.op).then_some(i) });
                }
                from += 1;
            }
        }
    }
    found
}

/// The lengths of the pieces of a body.
fn split(body: &[(u32, Ins)]) -> Vec<usize> {
    let (mut runs, mut written) = (Vec::new(), 0u32);
    for (_, i) in body {
        let used = match group(i.op) {
            Group::Load => 1 << i.rs1,
            Group::Store => 1 << i.rs1 | 1 << i.rs2,
            _ => 0,
        };
        if runs.is_empty() || used & written != 0 {
            runs.push(0);
            written = 0;
        }
        *runs.last_mut().unwrap() += 1;
        if i.op != Fence {
            written |= 1 << i.rd & !1;
        }
    }
    let mut pieces = Vec::new();
    for run in runs {
        let count: usize = (run + 15) / 16;
        (0..count).for_each(|k| pieces.push(run / count + (k < run % count) as usize));
    }
    if pieces.is_empty() { vec![0] } else { pieces }
}

const EBREAK: u32 = 0x0010_0073;

fn pair(r: u8) -> u32 {
    if r == 0 { 0 } else { r as u32 + 16 }
}

fn i_word(op: u32, f3: u32, rd: u32, rs1: u32, imm: i32) -> u32 {
    (imm as u32) << 20 | rs1 << 15 | f3 << 12 | rd << 7 | op
}

fn add(rd: u32, rs1: u32, rs2: u32) -> u32 {
    rs2 << 20 | rs1 << 15 | rd << 7 | 0x33
}

fn branch(f3: u32, rs1: u32, rs2: u32, imm: u32) -> u32 {
    (imm >> 5 & 63) << 25 | rs2 << 20 | rs1 << 15 | f3 << 12 | (imm >> 1 & 15) << 8 | (imm >> 11 & 1) << 7 | (imm >> 12) << 31 | 0x63
}

struct Woven<'t> {
    test: &'t Test,
    words: Vec<u32>,
    gos: Vec<(usize, u64)>,
    base: u64,
    far: bool,
    pieces: usize,
}

impl Woven<'_> {
    fn at(&self) -> u64 {
        self.base + 4 * self.words.len() as u64
    }

    fn constant(&mut self, rd: u32, value: u64) {
        let distance = value.wrapping_sub(self.at()) as i64;
        let high = (distance + 2048) >> 12;
        self.words.extend([(high as u32) << 12 | rd << 7 | 0x17, i_word(0x13, 0, rd, rd, (distance - (high << 12)) as i32)]);
    }

    fn go(&mut self, a: u64) {
        self.gos.push((self.words.len(), a));
        self.words.extend(&[0, 0][..1 + self.far as usize]);
    }

    fn guard(&mut self, r: u8) {
        if r != 0 {
            self.words.extend([branch(0, r as u32, pair(r), 8), EBREAK]);
        }
    }

    fn guards(&mut self, a: u8, b: u8) {
        self.guard(a);
        if b != a {
            self.guard(b);
        }
    }

    fn original(&mut self, word: u32, i: Ins, at: u64) {
        match group(i.op) {
            Group::Load => self.guard(i.rs1),
            Group::Store => self.guards(i.rs1, i.rs2),
            _ if i.op == Auipc => return self.constant(i.rd as u32, at.wrapping_add(i.imm as u64)),
            _ => {}
        }
        self.words.push(word);
    }

    fn mirror(&mut self, word: u32, i: Ins, at: u64) {
        let field = |low: u32, r: u8| (pair(r) ^ r as u32) << low;
        let (rd, rs1, rs2) = (field(7, i.rd), field(15, i.rs1), field(20, i.rs2));
        match group(i.op) {
            Group::Load => self.words.extend([add(30, pair(i.rs1), 14), (word ^ rd) & !(31 << 15) | 30 << 15]),
            Group::Store => self.words.extend([add(30, pair(i.rs1), 14), (word ^ rs2) & !(31 << 15) | 30 << 15]),
            _ if i.op == Auipc => self.constant(pair(i.rd), at.wrapping_add(i.imm as u64)),
            _ if i.op == Fence => {}
            _ => self.words.push(word ^ rd ^ rs1 ^ rs2),
        }
    }

    fn checks(&mut self) {
        (1..14).for_each(|r| self.guard(r));
        let data = &self.test.data;
        if data.is_empty() {
            return;
        }
        self.words.extend([i_word(3, 3, 30, 15, 0), add(31, 15, 14), i_word(3, 3, 31, 31, 0), branch(0, 30, 31, 8), EBREAK, i_word(0x13, 0, 15, 15, 8)]);
        for (k, r) in data.iter().enumerate() {
            self.constant(30, r.end);
            self.words.push(branch(1, 15, 30, 12));
            self.constant(15, data[(k + 1) % data.len()].start);
        }
    }

    fn leave(&mut self, end: Option<Ins>, at: u64) {
        let Some(i) = end else {
            self.constant(16, at);
            return self.go(at);
        };
        let target = at.wrapping_add(i.imm as u64);
        let link = |w: &mut Self| {
            if i.rd != 0 {
                w.constant(i.rd as u32, at + 4);
                w.constant(pair(i.rd), at + 4);
            }
        };
        let sum = |rd, rs1| [i_word(0x13, 0, rd, rs1, i.imm), i_word(0x13, 7, rd, rd, -2)];
        match i.op {
            Zero => self.words.push(0),
            Ecall => self.words.push(0x73),
            Jal => {
                link(self);
                self.constant(16, target);
                self.go(target);
            }
            Jalr => {
                self.words.extend(sum(16, pair(i.rs1)));
                self.guard(i.rs1);
                self.words.extend(sum(30, i.rs1 as u32));
                link(self);
                self.words.extend([add(31, 30, 14), add(31, 31, 14), i_word(3, 2, 30, 31, 0), add(30, 30, 31), i_word(0x67, 0, 0, 30, 0)]);
            }
            _ => {
                let f3 = [0, 1, 4, 5, 6, 7][i.op as usize - Beq as usize];
                self.words.push(branch(f3, pair(i.rs1), pair(i.rs2), 16));
                self.constant(16, at + 4);
                self.words.push(12 << 20 | 0x6f);
                self.constant(16, target);
                self.guards(i.rs1, i.rs2);
                self.words.push(branch(f3, i.rs1 as u32, i.rs2 as u32, if self.far { 12 } else { 8 }));
                self.go(at + 4);
                self.go(target);
            }
        }
    }

    fn entry(&mut self, block: &Block) {
        self.constant(30, block.start);
        self.words.extend([branch(0, 16, 30, 8), EBREAK]);
        let mut first = 0;
        for length in split(block.body) {
            self.pieces += 1;
            let piece = block.body[first..first + length].iter().enumerate();
            let place = |k| block.start + 4 * (first + k) as u64;
            piece.clone().for_each(|(k, (word, i))| self.original(*word, *i, place(k)));
            piece.for_each(|(k, (word, i))| self.mirror(*word, *i, place(k)));
            self.checks();
            first += length;
        }
        self.leave(block.end, block.start + 4 * block.body.len() as u64);
    }

    /// The new code, and the entries by their addresses.
    fn weave(&mut self, file: &File, blocks: &[Block]) -> Vec<(u64, u64)> {
        (1..30).filter(|r| !(14..17).contains(r)).for_each(|r| self.words.push(i_word(0x13, 0, r, 0, 0)));
        self.words.push(self.test.distance as u32 & !0xfff | 14 << 7 | 0x37);
        if let Some(first) = self.test.data.first() {
            self.constant(15, first.start);
        }
        self.constant(16, file.entry);
        self.go(file.entry);
        let mut entries = Vec::with_capacity(blocks.len());
        for block in blocks {
            entries.push((block.start, self.at()));
            self.entry(block);
        }
        let stub = self.at();
        self.words.push(0);
        for (k, a) in std::mem::take(&mut self.gos) {
            let at = self.base + 4 * k as u64;
            let target = entries.binary_search_by_key(&a, |e| e.0).map_or(stub, |e| entries[e].1);
            let d = target.wrapping_sub(at) as i64;
            if self.far {
                let high = (d + 2048) >> 12;
                self.words[k] = (high as u32) << 12 | 30 << 7 | 0x17;
                self.words[k + 1] = i_word(0x67, 0, 0, 30, (d - (high << 12)) as i32);
            } else {
                let d = d as u32;
                self.words[k] = (d >> 20 & 1) << 31 | (d >> 1 & 0x3ff) << 21 | (d >> 11 & 1) << 20 | d & 0xff000 | 0x6f;
            }
        }
        entries
    }
}

struct Written {
    flags: u64,
    vaddr: u64,
    data: Vec<u8>,
    memsz: u64,
}

struct Made {
    out: Vec<u8>,
    line: String,
    register: u64,
    word: u64,
}

fn low_bytes(words: &[u32]) -> Vec<u8> {
    words.iter().flat_map(|w| w.to_le_bytes()).collect()
}

fn transform(file: &File, test: &Test) -> Made {
    let blocks = blocks(file, test);
    let base = test.base + 3 * test.distance;
    let fresh = |far| Woven { test, words: Vec::new(), gos: Vec::new(), base, far, pieces: 0 };
    let mut woven = fresh(false);
    let mut entries = woven.weave(file, &blocks);
    if 4 * woven.words.len() > 1 << 20 {
        woven = fresh(true);
        entries = woven.weave(file, &blocks);
        if 4 * woven.words.len() > 64 << 20 {
            refuse("L4");
        }
    }
    let image = loads(file);
    let mut half: Vec<(u64, u64, Vec<u8>, u64)> = Vec::new();
    let mut joined = vec![false; image.len()];
    for r in &test.data {
        let last = r.segs.iter().filter(|k| !image[**k].data.is_empty()).map(|k| image[*k].vaddr + image[*k].data.len() as u64 - r.start).max();
        let mut bytes = vec![0; last.unwrap_or(0) as usize];
        for k in &r.segs {
            joined[*k] = true;
            let at = (image[*k].vaddr - r.start) as usize;
            bytes[at.min(last.unwrap_or(0) as usize)..][..image[*k].data.len()].copy_from_slice(image[*k].data);
        }
        half.push((if r.flags & 2 != 0 { 6 } else { 4 }, r.start, bytes, r.end - r.start));
    }
    let rest = image.iter().zip(&joined).filter(|(_, joined)| !**joined);
    half.extend(rest.map(|(s, _)| (s.flags & !1, s.vaddr, s.data.to_vec(), s.memsz)));
    half.sort_by_key(|s| s.1);
    let mut segs: Vec<Written> = half.iter().map(|s| Written { flags: s.0, vaddr: s.1, data: s.2.clone(), memsz: s.3 }).collect();
    segs.extend(half.into_iter().map(|s| Written { flags: s.0, vaddr: s.1 + test.distance, data: s.2, memsz: s.3 }));
    let mut over = Vec::new();
    if blocks.iter().any(|b| b.end.is_some_and(|i| i.op == Jalr)) {
        let first = entries[0].0;
        let mut table = vec![0u32; ((entries[entries.len() - 1].0 - first) / 4 + 1) as usize];
        entries.iter().for_each(|(a, new)| table[((a - first) / 4) as usize] = (new - (a + 2 * test.distance)) as u32);
        over.push((".qed.table", Some(segs.len())));
        segs.push(Written { flags: 4, vaddr: first + 2 * test.distance, memsz: 4 * table.len() as u64, data: low_bytes(&table) });
    }
    over.insert(0, (".qed.text", Some(segs.len())));
    over.push((".qed.map", None));
    segs.push(Written { flags: 5, vaddr: base, memsz: 4 * woven.words.len() as u64, data: low_bytes(&woven.words) });
    if segs.len() > 4000 {
        println!("limit L8: {} over 4000", segs.len());
        exit(4);
    }
    let map: Vec<u8> = entries.iter().flat_map(|e| [e.0, e.1]).flat_map(u64::to_le_bytes).collect();
    let out = write(file, base, &segs, &over, &map, &entries);
    let words = test.words();
    let ranges = test.data.len() as u64;
    let piece = 30 + 5 * 16 + 7 + 3 * if words > 0 { ranges } else { 1 };
    let start = 32 + woven.far as u64;
    let (register, word) = (start + 2 * piece, start + (words + 2) * piece);
    let told = if words > 0 { word.to_string() } else { "none".into() };
    let (bytes, pieces) = (4 * woven.words.len(), woven.pieces);
    let line = format!("code {bytes} bytes, entries {}, pieces {pieces}, half {}, register bound {register}, word bound {told}\n", entries.len(), test.distance);
    Made { out, line, register, word }
}

fn write(file: &File, entry: u64, segs: &[Written], over: &[(&str, Option<usize>)], map: &[u8], entries: &[(u64, u64)]) -> Vec<u8> {
    let mut syms: Vec<(u64, u64, &Sym)> = Vec::new();
    for s in file.syms.iter().filter(|s| !s.name.is_empty() && s.shndx != 0 && s.info & 15 <= 2) {
        let place = entries.binary_search_by_key(&s.value, |e| e.0);
        match place {
            Ok(k) if s.info & 15 != 1 => syms.push((entries[k].1, 0, s)),
            _ => syms.push((s.value, s.size, s)),
        }
    }
    syms.sort_by_key(|s| s.2.info >> 4 != 0);
    let mut out = vec![0u8; 64 + 56 * segs.len()];
    let mut offs = Vec::new();
    for s in segs {
        let at = out.len() + (s.vaddr.wrapping_sub(out.len() as u64) % 4096) as usize;
        out.resize(at, 0);
        out.extend_from_slice(&s.data);
        offs.push(at);
    }
    let mut heads: Vec<[u64; 9]> = Vec::new();
    for (_, seg) in over {
        match seg {
            Some(k) => heads.push([1, 2 | (segs[*k].flags & 1) << 2, segs[*k].vaddr, offs[*k] as u64, segs[*k].memsz, 0, 0, 1, 0]),
            None => {
                heads.push([1, 0, 0, out.len() as u64, map.len() as u64, 0, 0, 1, 0]);
                out.extend_from_slice(map);
            }
        }
    }
    out.resize(out.len().next_multiple_of(8), 0);
    let count = over.len() as u64;
    let locals = 1 + syms.iter().filter(|s| s.2.info >> 4 == 0).count() as u64;
    heads.push([2, 0, 0, out.len() as u64, 24 * (syms.len() as u64 + 1), count + 2, locals, 8, 24]);
    out.resize(out.len() + 24, 0);
    let mut strings = vec![0u8];
    for (value, size, s) in &syms {
        out.extend_from_slice(&(strings.len() as u32).to_le_bytes());
        out.extend_from_slice(&[s.info, s.other, 0xf1, 0xff]);
        out.extend_from_slice(&value.to_le_bytes());
        out.extend_from_slice(&size.to_le_bytes());
        strings.extend_from_slice(s.name);
        strings.push(0);
    }
    heads.push([3, 0, 0, out.len() as u64, strings.len() as u64, 0, 0, 1, 0]);
    out.extend_from_slice(&strings);
    let (mut names, mut starts) = (vec![0u8], Vec::new());
    for name in over.iter().map(|o| o.0).chain([".symtab", ".strtab", ".shstrtab"]) {
        starts.push(names.len() as u32);
        names.extend_from_slice(name.as_bytes());
        names.push(0);
    }
    heads.push([3, 0, 0, out.len() as u64, names.len() as u64, 0, 0, 1, 0]);
    out.extend_from_slice(&names);
    out.resize(out.len().next_multiple_of(8), 0);
    let shoff = out.len() as u64;
    out.resize(out.len() + 64, 0);
    for (start, h) in starts.iter().zip(&heads) {
        out.extend_from_slice(&start.to_le_bytes());
        for (k, v) in h.iter().enumerate() {
            out.extend_from_slice(&v.to_le_bytes()[..if matches!(k, 0 | 5 | 6) { 4 } else { 8 }]);
        }
    }
    let mut head = b"\x7fELF\x02\x01\x01\0\0\0\0\0\0\0\0\0\x02\0\xf3\0\x01\0\0\0".to_vec();
    [entry, 64, shoff].iter().for_each(|v| head.extend_from_slice(&v.to_le_bytes()));
    head.extend_from_slice(&(file.flags as u32).to_le_bytes());
    let count = heads.len() as u64 + 1;
    [64, 56, segs.len() as u64, 64, count, count - 1].iter().for_each(|v| head.extend_from_slice(&(*v as u16).to_le_bytes()));
    for (s, off) in segs.iter().zip(&offs) {
        head.extend_from_slice(&1u32.to_le_bytes());
        head.extend_from_slice(&(s.flags as u32).to_le_bytes());
        [*off as u64, s.vaddr, s.vaddr, s.data.len() as u64, s.memsz, 4096].iter().for_each(|v| head.extend_from_slice(&v.to_le_bytes()));
    }
    out[..head.len()].copy_from_slice(&head);
    out
}

// ---- runs

struct Part {
    start: u64,
    flags: u64,
    bytes: Vec<u8>,
}

#[derive(Clone, Copy, PartialEq)]
enum Outcome {
    Going,
    Ended,
    Fired,
    Trapped,
}

struct Machine {
    x: [u64; 32],
    pc: u64,
    outcome: Outcome,
    parts: Vec<Part>,
    /// The part of each page from the first on.
    pages: Vec<u32>,
    first: u64,
    code: Vec<Ins>,
    code_start: u64,
    /// What stores have overwritten, while a strike is tried.
    log: Vec<(u32, u32, u64)>,
    is_logged: bool,
}

impl Machine {
    fn start(file: &File) -> Machine {
        let mut parts = Vec::new();
        for s in loads(file) {
            let mut bytes = vec![0u8; s.memsz as usize];
            bytes[..s.data.len()].copy_from_slice(s.data);
            parts.push(Part { start: s.vaddr, flags: s.flags, bytes });
        }
        let first = parts.first().map_or(0, |p: &Part| p.start) >> 12;
        let end = parts.last().map_or(0, |p| (p.start + p.bytes.len() as u64 - 1) >> 12);
        let mut pages = vec![0; if end - first < 1 << 18 { (end - first + 1) as usize } else { 0 }];
        for (k, p) in parts.iter().enumerate() {
            for page in p.start >> 12..=(p.start + p.bytes.len() as u64 - 1) >> 12 {
                if let Some(place) = pages.get_mut((page - first) as usize) {
                    *place = k as u32;
                }
            }
        }
        let ranges = code_ranges(file);
        let (code_start, end) = (ranges.first().map_or(0, |r| r.0 & !3), ranges.last().map_or(0, |r| r.1));
        let none = Ins { op: Fetch, rd: 0, rs1: 0, rs2: 0, imm: 0 };
        let mut code = vec![none; ((end - code_start) / 4) as usize];
        for (a, b) in ranges {
            let (a, b) = ((a.next_multiple_of(4) - code_start) / 4, (b - code_start) / 4);
            code[a as usize..b as usize].iter_mut().for_each(|i| i.op = Unknown);
        }
        Machine { x: [0; 32], pc: file.entry, outcome: Outcome::Going, parts, pages, first, code, code_start, log: Vec::new(), is_logged: false }
    }

    /// The part and the offset of some bytes that have a permission.
    fn place(&self, a: u64, n: usize, flag: u64) -> Option<(usize, usize)> {
        let mut k = *self.pages.get((a >> 12).wrapping_sub(self.first) as usize).unwrap_or(&0) as usize;
        let fits = |k: usize| (a.wrapping_sub(self.parts[k].start) as usize).checked_add(n).is_some_and(|end| end <= self.parts[k].bytes.len());
        if !fits(k) {
            k = self.parts.partition_point(|p| p.start <= a).checked_sub(1)?;
        }
        (fits(k) && self.parts[k].flags & flag != 0).then(|| (k, (a - self.parts[k].start) as usize))
    }

    fn load<const N: usize>(&self, a: u64) -> Option<u64> {
        let (k, at) = self.place(a, N, 4)?;
        let mut bytes = [0; 8];
        bytes[..N].copy_from_slice(&self.parts[k].bytes[at..at + N]);
        Some(u64::from_le_bytes(bytes))
    }

    fn store<const N: usize>(&mut self, a: u64, value: u64) -> Option<()> {
        let (k, at) = self.place(a, N, 2)?;
        self.put(k, at, N, value);
        Some(())
    }

    fn put(&mut self, k: usize, at: usize, n: usize, value: u64) {
        if self.is_logged {
            let mut old = [0; 8];
            old[..n].copy_from_slice(&self.parts[k].bytes[at..at + n]);
            self.log.push((k as u32 | (n as u32) << 24, at as u32, u64::from_le_bytes(old)));
        }
        self.parts[k].bytes[at..at + n].copy_from_slice(&value.to_le_bytes()[..n]);
        if self.parts[k].flags & 1 != 0 {
            self.code.iter_mut().for_each(|i| i.op = if i.op == Fetch { Fetch } else { Unknown });
        }
    }

    /// Takes back what a strike has stored.
    fn undo(&mut self) {
        while let Some((k, at, old)) = self.log.pop() {
            let (k, n, at) = ((k & 0xff_ffff) as usize, (k >> 24) as usize, at as usize);
            self.parts[k].bytes[at..at + n].copy_from_slice(&old.to_le_bytes()[..n]);
        }
    }

    /// The instruction at a place, which is decoded.
    #[cold]
    fn learn(&mut self, k: usize) {
        let found = self.place(self.code_start + 4 * k as u64, 4, 1);
        self.code[k] = match found {
            Some((p, at)) => decode(number(&self.parts[p].bytes, at, 4) as u32),
            None => Ins { op: Fetch, rd: 0, rs1: 0, rs2: 0, imm: 0 },
        };
    }

    /// Makes so many steps, and returns how many it made.
    fn run(&mut self, n: u64) -> u64 {
        for made in 0..n {
            if self.outcome != Outcome::Going {
                return made;
            }
            if self.step().is_none() {
                self.outcome = Outcome::Trapped;
            }
        }
        n
    }

    #[inline(always)]
    fn step(&mut self) -> Option<()> {
        let k = (self.pc.wrapping_sub(self.code_start) >> 2) as usize;
        let mut i = *self.code.get(k)?;
        if i.op == Unknown {
            self.learn(k);
            i = self.code[k];
        }
        let (a, b, imm) = (self.x[(i.rs1 & 31) as usize], self.x[(i.rs2 & 31) as usize], i.imm as i64 as u64);
        let (sa, sb) = (a as i64, b as i64);
        let (wa, wb) = (a as i32, b as i32);
        let long = |w: i32| w as i64 as u64;
        let place = a.wrapping_add(imm);
        let mut next = self.pc.wrapping_add(4);
        let taken = self.pc.wrapping_add(imm);
        let value = match i.op {
            Lui => imm,
            Auipc => taken,
            Jal | Jalr => {
                let target = if i.op == Jal { taken } else { place & !1 };
                if target % 4 != 0 {
                    return None;
                }
                let link = next;
                next = target;
                link
            }
            Beq | Bne | Blt | Bge | Bltu | Bgeu => {
                let is_taken = match i.op {
                    Beq => a == b,
                    Bne => a != b,
                    Blt => sa < sb,
                    Bge => sa >= sb,
                    Bltu => a < b,
                    _ => a >= b,
                };
                if is_taken {
                    if taken % 4 != 0 {
                        return None;
                    }
                    next = taken;
                }
                self.pc = next;
                return Some(());
            }
            Lb => self.load::<1>(place)? as i8 as u64,
            Lh => self.load::<2>(place)? as i16 as u64,
            Lw => self.load::<4>(place)? as i32 as u64,
            Ld => self.load::<8>(place)?,
            Lbu => self.load::<1>(place)?,
            Lhu => self.load::<2>(place)?,
            Lwu => self.load::<4>(place)?,
            Sb | Sh | Sw | Sd | Fence => {
                match i.op {
                    Sb => self.store::<1>(place, b)?,
                    Sh => self.store::<2>(place, b)?,
                    Sw => self.store::<4>(place, b)?,
                    Sd => self.store::<8>(place, b)?,
                    _ => {}
                }
                self.pc = next;
                return Some(());
            }
            Addi => place,
            Slti => (sa < imm as i64) as u64,
            Sltiu => (a < imm) as u64,
            Xori => a ^ imm,
            Ori => a | imm,
            Andi => a & imm,
            Slli => a << (imm & 63),
            Srli => a >> (imm & 63),
            Srai => (sa >> (imm & 63)) as u64,
            Addiw => long(wa.wrapping_add(i.imm)),
            Slliw => long(wa << (imm & 31)),
            Srliw => long((a as u32 >> (imm & 31)) as i32),
            Sraiw => long(wa >> (imm & 31)),
            Add => a.wrapping_add(b),
            Sub => a.wrapping_sub(b),
            Sll => a << (b & 63),
            Slt => (sa < sb) as u64,
            Sltu => (a < b) as u64,
            Xor => a ^ b,
            Srl => a >> (b & 63),
            Sra => (sa >> (b & 63)) as u64,
            Or => a | b,
            And => a & b,
            Addw => long(wa.wrapping_add(wb)),
            Subw => long(wa.wrapping_sub(wb)),
            Sllw => long(wa << (b & 31)),
            Srlw => long((a as u32 >> (b & 31)) as i32),
            Sraw => long(wa >> (b & 31)),
            Mul => a.wrapping_mul(b),
            Mulh => (sa as i128 * sb as i128 >> 64) as u64,
            Mulhsu => (sa as i128 * b as i128 >> 64) as u64,
            Mulhu => (a as u128 * b as u128 >> 64) as u64,
            Div => if b == 0 { u64::MAX } else { sa.wrapping_div(sb) as u64 },
            Divu => a.checked_div(b).unwrap_or(u64::MAX),
            Rem => if b == 0 { a } else { sa.wrapping_rem(sb) as u64 },
            Remu => a.checked_rem(b).unwrap_or(a),
            Mulw => long(wa.wrapping_mul(wb)),
            Divw => if wb == 0 { u64::MAX } else { long(wa.wrapping_div(wb)) },
            Divuw => if wb == 0 { u64::MAX } else { long((a as u32 / b as u32) as i32) },
            Remw => if wb == 0 { long(wa) } else { long(wa.wrapping_rem(wb)) },
            Remuw => if wb == 0 { long(wa) } else { long((a as u32 % b as u32) as i32) },
            Ecall | Ebreak => {
                self.outcome = if i.op == Ecall { Outcome::Ended } else { Outcome::Fired };
                return Some(());
            }
            Zero | Bad | Fetch | Unknown => return None,
        };
        if i.rd != 0 {
            self.x[(i.rd & 31) as usize] = value;
        }
        self.pc = next;
        Some(())
    }
}

fn run(file: &File, most: u64) {
    let mut machine = Machine::start(file);
    let made = machine.run(most);
    let name = ["going", "ended", "fired", "trapped"][machine.outcome as usize];
    println!("{name} after {made} steps at 0x{:016x}", machine.pc);
    (1..32).for_each(|r| println!("x{r} 0x{:016x}", machine.x[r]));
}

// ---- campaigns

/// The random words of a seed.
struct Random {
    state: u128,
    increment: u128,
}

impl Random {
    fn new(mut seed: u64) -> Random {
        let mut words = [0u128; 8];
        for word in &mut words {
            seed = seed.wrapping_mul(6364136223846793005).wrapping_add(11634580027462260723);
            *word = (((seed >> 18 ^ seed) >> 27) as u32).rotate_right((seed >> 59) as u32) as u128;
        }
        let whole = |w: &[u128]| w[0] | w[1] << 32 | w[2] << 64 | w[3] << 96;
        let mut random = Random { state: whole(&words[..4]), increment: whole(&words[4..]) | 1 };
        random.state = random.state.wrapping_add(random.increment);
        random.go_on();
        random
    }

    fn go_on(&mut self) {
        self.state = self.state.wrapping_mul(0x2360ED051FC65DA44385DF649FCCF645).wrapping_add(self.increment);
    }

    fn next(&mut self) -> u64 {
        self.go_on();
        ((self.state >> 64 ^ self.state) as u64).rotate_right((self.state >> 122) as u32)
    }
}

/// Whether a register is closed in the state of a machine that goes on.
fn is_closed(machine: &Machine, register: u8) -> bool {
    let ahead = |n: u64| {
        let (part, at) = machine.place(machine.pc + n, 4, 1)?;
        Some(decode(number(&machine.parts[part].bytes, at, 4) as u32))
    };
    let is_use = |i: Option<Ins>| {
        let Some(i) = i else { return false };
        match group(i.op) {
            Group::Branch => i.rs1 <= 13 && i.rs2 <= 13 && (i.rs1 == register || i.rs2 == register),
            Group::Load => i.rs1 == register,
            Group::Store => i.rs1 == register || i.rs2 == register,
            _ => i.op == Addi && i.rd == 30 && i.rs1 == register,
        }
    };
    let Some(i) = ahead(0) else { return false };
    let checks = |j: Ins| group(j.op) == Group::Branch && j.rs1 as u32 == pair(i.rs1) && j.rs2 as u32 == pair(i.rs2);
    if is_use(Some(i)) && !(group(i.op) == Group::Branch && ahead(4).is_some_and(checks)) {
        return true;
    }
    let far = if i.op == Bne { 4 } else if i.op == Beq && i.imm == 8 { 8 } else { 0 };
    far > 0 && (1..14).contains(&i.rs1) && i.rs1 != register && i.rs2 == i.rs1 + 16 && is_use(ahead(far))
}

fn campaign(file: &File, seed: u64, count: usize) {
    let test = admit(file);
    let made = transform(file, &test);
    let out = read(&made.out);
    let words = test.words();
    let reach = Machine::start(&out).run(1_000_000);
    let mut random = Random::new(seed);
    let strikes: Vec<(u64, u64, u64)> = (0..count).map(|_| (random.next() % reach, random.next() % (13 + words), random.next())).collect();
    let mut order: Vec<usize> = (0..count).collect();
    order.sort_by_key(|k| strikes[*k].0);
    let (mut input, mut input_made) = (Machine::start(file), 0);
    let (mut way, mut way_made) = (Machine::start(&out), 0);
    let mut lines = vec![String::new(); count];
    let mut counts = [0; 4];
    let mut longest = 0;
    for k in order {
        let (step, mut place, value) = strikes[k];
        way_made += way.run(step - way_made);
        let line = &mut lines[k];
        let _ = write!(line, "{k} step {step} ");
        let mut word = None;
        if place < 13 {
            let _ = write!(line, "x{}=0x{value:016x} ", place + 1);
        } else {
            place -= 13;
            let range = test.data.iter().find(|r| {
                let n = (r.end - r.start) / 8;
                let is_here = place < n;
                place -= if is_here { 0 } else { n };
                is_here
            });
            let address = range.map_or(0, |r| r.start) + 8 * place;
            let _ = write!(line, "0x{address:016x}=0x{value:016x} ");
            word = Some(address);
        }
        if word.is_none() && is_closed(&way, place as u8 + 1) {
            counts[3] += 1;
            line.push_str("closed\n");
            continue;
        }
        let (x, pc) = (way.x, way.pc);
        way.is_logged = true;
        match word.map(|a| way.place(a, 8, 7)) {
            Some(Some((part, at))) => way.put(part, at, 8, value),
            Some(None) => {}
            None => way.x[place as usize + 1] = value,
        }
        let bound = if word.is_some() { made.word } else { made.register };
        let steps = way.run(bound);
        let outcome = way.outcome;
        way.is_logged = false;
        way.undo();
        (way.x, way.pc, way.outcome) = (x, pc, Outcome::Going);
        let number = match outcome {
            Outcome::Fired => 0,
            Outcome::Ended => 1,
            _ => 2,
        };
        counts[number] += 1;
        if number < 2 {
            let _ = writeln!(line, "{} {steps}", ["fired", "ended"][number]);
        } else {
            line.push_str("same\n");
            if step + bound > input_made {
                input_made += input.run(step + bound - input_made);
            }
            if input.outcome == Outcome::Trapped {
                println!("input trapped at 0x{:016x}", input.pc);
                exit(11);
            }
        }
        if number == 0 {
            longest = longest.max(steps);
        }
    }
    let bound = if words > 0 { made.word.to_string() } else { "none".into() };
    print!("{}", lines.concat());
    println!("strikes {count}, fired {}, ended {}, same {}, closed {}, not reached 0, longest {longest}, register bound {}, word bound {bound}", counts[0], counts[1], counts[2], counts[3], made.register);
}

fn main() {
    let words: Vec<String> = env::args().collect();
    let number_at = |k: usize| words.get(k).and_then(|w| w.parse::<u64>().ok()).unwrap_or_else(|| refuse("words"));
    if words.len() < 4 {
        refuse("words");
    }
    let bytes = fs::read(&words[2]).unwrap_or_else(|_| refuse("IN"));
    let file = read(&bytes);
    match words[1].as_str() {
        "transform" => {
            let made = transform(&file, &admit(&file));
            print!("{}", made.line);
            fs::write(&words[3], &made.out).unwrap_or_else(|_| refuse("OUT"));
        }
        "run" => run(&file, number_at(3)),
        _ => campaign(&file, number_at(3), number_at(4) as usize),
    }
}
