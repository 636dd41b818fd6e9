//! base --on TEXT R.csv S.csv: the plain single-threaded baseline, no crates, nothing proved.
//! Key: number equality by a hash map; else a band by a sorted index; else text equality by a
//! hash map; else an inequality by the sorted index; else the nested loop. BASE_LOOP=1 forces
//! the nested loop. Prints i,j per pair, ordered, rows counted from 1, as `jm` does.
//! base --digest < PAIRS: prints the number of pairs, a sum over them that doesn't depend on
//! their order, and whether they are ordered. Equal digests: equal as multisets of pairs.
use std::collections::HashMap;
use std::io::Write;

struct Table {
    names: Vec<Vec<u8>>,
    bytes: Vec<u8>,
    cells: Vec<(u32, u32)>,
    rows: usize,
    nums: Vec<Vec<Option<i64>>>,
}

impl Table {
    fn text(&self, row: usize, col: usize) -> &[u8] {
        let (a, b) = self.cells[row * self.names.len() + col];
        &self.bytes[a as usize..b as usize]
    }
}

fn die(status: i32, text: String) -> ! {
    eprintln!("{text}");
    std::process::exit(status)
}

/// CSV: comma, double quotes, doubled quotes inside; LF, CR or CR LF; blank lines are no records.
/// Fields are unquoted in place: the writing place never passes the reading place.
fn read(name: &str, side: char) -> Table {
    let mut b = std::fs::read(name).unwrap_or_else(|_| die(6, "read: failed".into()));
    let (mut i, n) = (0, b.len());
    while b[i..].starts_with(b"\xef\xbb\xbf") {
        i += 3
    }
    let (mut w, mut width, mut cells, mut rows) = (0usize, 0usize, Vec::new(), 0usize);
    while i < n {
        if b[i] == b'\n' || b[i] == b'\r' {
            i += 1;
            continue;
        }
        let first = cells.len();
        loop {
            let start = w;
            if i < n && b[i] == b'"' {
                i += 1;
                while i < n {
                    if b[i] == b'"' {
                        if i + 1 < n && b[i + 1] == b'"' {
                            i += 1
                        } else {
                            i += 1;
                            break;
                        }
                    }
                    b[w] = b[i];
                    w += 1;
                    i += 1;
                }
            }
            while i < n && !matches!(b[i], b',' | b'\n' | b'\r') {
                b[w] = b[i];
                w += 1;
                i += 1
            }
            cells.push((start as u32, w as u32));
            if i < n && b[i] == b',' {
                i += 1
            } else {
                i += 1;
                break;
            }
        }
        if width == 0 {
            width = cells.len()
        } else {
            rows += 1;
            if cells.len() - first != width {
                die(
                    4,
                    format!(
                        "input: {side} row {rows} has {} fields",
                        cells.len() - first
                    ),
                )
            }
        }
    }
    if width == 0 {
        die(4, format!("input: {side} has no header"))
    }
    let names = cells[..width]
        .iter()
        .map(|&(a, e)| b[a as usize..e as usize].to_vec())
        .collect();
    cells.drain(..width);
    Table {
        names,
        bytes: b,
        cells,
        rows,
        nums: vec![Vec::new(); width],
    }
}

/// Some(None) is an empty cell, None is no number.
fn number(t: &[u8]) -> Option<Option<i64>> {
    let t = std::str::from_utf8(t).ok()?.trim_matches(' ');
    if t.is_empty() {
        return Some(None);
    }
    t.parse().ok().map(Some)
}

#[derive(Clone, Copy, PartialEq)]
enum Op {
    Eq,
    Ne,
    Lt,
    Le,
    Gt,
    Ge,
}
#[derive(Clone, Copy)]
enum Term {
    Const(i64),
    R(usize),
    S(usize),
}
type Sum = Vec<(bool, Term)>;
enum Txt {
    Lit(Vec<u8>),
    R(usize),
    S(usize),
}
enum Pred {
    Or(Vec<Pred>),
    And(Vec<Pred>),
    Not(Box<Pred>),
    Num(Sum, Op, Sum),
    Abs(Sum, Op, i64),
    Txt(Txt, Op, Txt),
}

fn cmp<T: Ord + ?Sized>(op: Op, a: &T, b: &T) -> bool {
    match op {
        Op::Eq => a == b,
        Op::Ne => a != b,
        Op::Lt => a < b,
        Op::Le => a <= b,
        Op::Gt => a > b,
        Op::Ge => a >= b,
    }
}

/// The grammar of a predicate (docs/USAGE.md), over bytes; names are resolved on the way.
struct Parser<'a> {
    t: &'a [u8],
    p: usize,
    r: &'a Table,
    s: &'a Table,
}

impl Parser<'_> {
    fn bad(&self) -> ! {
        die(3, format!("predicate: not understood at byte {}", self.p))
    }
    fn peek(&mut self) -> u8 {
        while self.p < self.t.len() && b" \t\n\r".contains(&self.t[self.p]) {
            self.p += 1
        }
        *self.t.get(self.p).unwrap_or(&0)
    }
    fn sign(&mut self, s: &str) -> bool {
        self.peek();
        let ok = self.t[self.p..].starts_with(s.as_bytes());
        if ok {
            self.p += s.len()
        }
        ok
    }
    fn need(&mut self, s: &str) {
        if !self.sign(s) {
            self.bad()
        }
    }
    fn word(&mut self) -> &[u8] {
        self.peek();
        let a = self.p;
        while self.p < self.t.len()
            && (self.t[self.p] == b'_' || self.t[self.p].is_ascii_alphanumeric())
        {
            self.p += 1
        }
        &self.t[a..self.p]
    }
    fn is_word(&mut self, w: &str) -> bool {
        self.peek();
        let a = self.p;
        let ok = self.word() == w.as_bytes();
        if !ok {
            self.p = a
        }
        ok
    }
    fn quoted(&mut self, q: u8) -> Vec<u8> {
        let mut v = Vec::new();
        self.p += 1;
        loop {
            match self.t.get(self.p) {
                None => self.bad(),
                Some(&c) if c == q => {
                    self.p += 1;
                    if self.t.get(self.p) == Some(&q) {
                        v.push(q);
                        self.p += 1
                    } else {
                        return v;
                    }
                }
                Some(&c) => {
                    v.push(c);
                    self.p += 1
                }
            }
        }
    }
    fn name(&mut self) -> (bool, usize) {
        let is_r = self.is_word("r");
        if !is_r && !self.is_word("s") {
            self.bad()
        }
        self.need(".");
        let w = if self.peek() == b'"' {
            self.quoted(b'"')
        } else {
            self.word().to_vec()
        };
        let names = if is_r { &self.r.names } else { &self.s.names };
        match names.iter().position(|n| *n == w) {
            Some(c) => (is_r, c),
            None => die(
                3,
                format!(
                    "predicate: {} has no column {}",
                    if is_r { "R" } else { "S" },
                    String::from_utf8_lossy(&w)
                ),
            ),
        }
    }
    fn num(&mut self) -> i64 {
        match std::str::from_utf8(self.word()).unwrap().parse() {
            Ok(v) => v,
            Err(_) => self.bad(),
        }
    }
    fn term(&mut self) -> Term {
        if self.peek().is_ascii_digit() {
            Term::Const(self.num())
        } else {
            match self.name() {
                (true, c) => Term::R(c),
                (false, c) => Term::S(c),
            }
        }
    }
    fn sum(&mut self) -> Sum {
        let minus = self.sign("-");
        if !minus {
            self.sign("+");
        }
        let mut v = vec![(minus, self.term())];
        loop {
            if self.sign("+") {
                v.push((false, self.term()))
            } else if self.sign("-") {
                v.push((true, self.term()))
            } else {
                return v;
            }
        }
    }
    fn op(&mut self) -> Op {
        for (s, o) in [
            ("!=", Op::Ne),
            ("<=", Op::Le),
            (">=", Op::Ge),
            ("=", Op::Eq),
            ("<", Op::Lt),
            (">", Op::Gt),
        ] {
            if self.sign(s) {
                return o;
            }
        }
        self.bad()
    }
    fn side(&mut self) -> Txt {
        if self.peek() == b'\'' {
            return Txt::Lit(self.quoted(b'\''));
        }
        if !self.is_word("text") {
            self.bad()
        }
        self.need("(");
        let (r, c) = self.name();
        self.need(")");
        if r {
            Txt::R(c)
        } else {
            Txt::S(c)
        }
    }
    fn unit(&mut self) -> Pred {
        if self.is_word("not") {
            return Pred::Not(Box::new(self.unit()));
        }
        if self.sign("(") {
            let p = self.or();
            self.need(")");
            return p;
        }
        if self.is_word("abs") {
            self.need("(");
            let s = self.sum();
            self.need(")");
            let o = self.op();
            return Pred::Abs(s, o, {
                self.peek();
                self.num()
            });
        }
        let a = self.p;
        if self.peek() == b'\'' || self.is_word("text") {
            self.p = a;
            let l = self.side();
            let o = self.op();
            return Pred::Txt(l, o, self.side());
        }
        let l = self.sum();
        let o = self.op();
        Pred::Num(l, o, self.sum())
    }
    fn and(&mut self) -> Pred {
        let mut v = vec![self.unit()];
        while self.is_word("and") {
            v.push(self.unit())
        }
        if v.len() == 1 {
            v.pop().unwrap()
        } else {
            Pred::And(v)
        }
    }
    fn or(&mut self) -> Pred {
        let mut v = vec![self.and()];
        while self.is_word("or") {
            v.push(self.and())
        }
        if v.len() == 1 {
            v.pop().unwrap()
        } else {
            Pred::Or(v)
        }
    }
}

/// Which columns stand in sums.
fn columns(p: &Pred, f: &mut dyn FnMut(Term)) {
    match p {
        Pred::Or(v) | Pred::And(v) => v.iter().for_each(|q| columns(q, f)),
        Pred::Not(q) => columns(q, f),
        Pred::Num(a, _, b) => a.iter().chain(b).for_each(|&(_, t)| f(t)),
        Pred::Abs(a, _, _) => a.iter().for_each(|&(_, t)| f(t)),
        Pred::Txt(..) => (),
    }
}

struct Join {
    r: Table,
    s: Table,
}

impl Join {
    fn sum(&self, s: &Sum, i: usize, j: usize) -> Option<i128> {
        let mut v = 0i128;
        for &(minus, t) in s {
            let x = match t {
                Term::Const(c) => c,
                Term::R(c) => self.r.nums[c][i]?,
                Term::S(c) => self.s.nums[c][j]?,
            } as i128;
            if minus {
                v -= x
            } else {
                v += x
            }
        }
        Some(v)
    }
    fn txt<'a>(&'a self, t: &'a Txt, i: usize, j: usize) -> &'a [u8] {
        match t {
            Txt::Lit(b) => b,
            Txt::R(c) => self.r.text(i, *c),
            Txt::S(c) => self.s.text(j, *c),
        }
    }
    fn holds(&self, p: &Pred, i: usize, j: usize) -> bool {
        match p {
            Pred::Or(v) => v.iter().any(|q| self.holds(q, i, j)),
            Pred::And(v) => v.iter().all(|q| self.holds(q, i, j)),
            Pred::Not(q) => !self.holds(q, i, j),
            Pred::Num(a, o, b) => match (self.sum(a, i, j), self.sum(b, i, j)) {
                (Some(x), Some(y)) => cmp(*o, &x, &y),
                _ => false,
            },
            Pred::Abs(a, o, v) => self
                .sum(a, i, j)
                .is_some_and(|x| cmp(*o, &x.abs(), &(*v as i128))),
            Pred::Txt(a, o, b) => cmp(*o, self.txt(a, i, j), self.txt(b, i, j)),
        }
    }
}

/// The key atom of a predicate (docs/GLOSSARY.md): R's part, S's part negated, and the bounds of their difference.
struct Key {
    rank: u8,
    r: Sum,
    s: Sum,
    low: Option<i128>,
    high: Option<i128>,
}

fn key(p: &Pred) -> Option<Key> {
    let (left, right, op, v): (&Sum, &[(bool, Term)], Op, i128) = match p {
        Pred::Num(a, o, b) => (a, b, *o, 0),
        Pred::Abs(a, o, v) => (a, &[], *o, *v as i128),
        _ => return None,
    };
    let (mut r, mut s, mut c) = (Vec::new(), Vec::new(), 0i128);
    for (minus, t) in left
        .iter()
        .map(|&(m, t)| (m, t))
        .chain(right.iter().map(|&(m, t)| (!m, t)))
    {
        match t {
            Term::Const(x) => c += if minus { -(x as i128) } else { x as i128 },
            Term::R(_) => r.push((minus, t)),
            Term::S(_) => s.push((!minus, t)),
        }
    }
    if r.is_empty() || s.is_empty() {
        return None;
    }
    let (rank, low, high) = match (p, op) {
        (Pred::Num(..), Op::Eq) => (0, Some(-c), Some(-c)),
        (Pred::Abs(..), Op::Le) => (1, Some(-v - c), Some(v - c)),
        (Pred::Abs(..), Op::Lt) => (1, Some(-v + 1 - c), Some(v - 1 - c)),
        (Pred::Num(..), Op::Le) => (3, None, Some(-c)),
        (Pred::Num(..), Op::Lt) => (3, None, Some(-c - 1)),
        (Pred::Num(..), Op::Ge) => (3, Some(-c), None),
        (Pred::Num(..), Op::Gt) => (3, Some(-c + 1), None),
        _ => return None,
    };
    Some(Key {
        rank,
        r,
        s,
        low,
        high,
    })
}

struct Out {
    buf: Vec<u8>,
    file: std::io::Stdout,
}

impl Out {
    fn digits(&mut self, mut v: usize) {
        let (mut d, mut n) = ([0u8; 20], 20);
        loop {
            n -= 1;
            d[n] = b'0' + (v % 10) as u8;
            v /= 10;
            if v == 0 {
                break;
            }
        }
        self.buf.extend_from_slice(&d[n..]);
    }
    fn pair(&mut self, i: usize, j: usize) {
        self.digits(i + 1);
        self.buf.push(b',');
        self.digits(j + 1);
        self.buf.push(b'\n');
        if self.buf.len() > 1 << 16 {
            self.flush()
        }
    }
    fn flush(&mut self) {
        if self.file.lock().write_all(&self.buf).is_err() {
            die(7, "write: failed".into())
        }
        self.buf.clear()
    }
}

fn digest() {
    let mut b = Vec::new();
    std::io::Read::read_to_end(&mut std::io::stdin(), &mut b).unwrap();
    let (mut count, mut sum, mut last, mut ordered) = (0u64, 0u64, (0, 0), true);
    for line in b.split(|&c| c == b'\n').filter(|l| !l.is_empty()) {
        let line = std::str::from_utf8(line).unwrap().trim_end();
        let Some((i, j)) = line
            .split_once(',')
            .and_then(|(i, j)| Some((i.parse::<u64>().ok()?, j.parse::<u64>().ok()?)))
        else {
            println!("not a pair: {line}");
            return;
        };
        let mut h = (i << 32 | j).wrapping_mul(0x9e3779b97f4a7c15);
        h = (h ^ h >> 29).wrapping_mul(0xbf58476d1ce4e5b9);
        sum = sum.wrapping_add(h ^ h >> 32);
        count += 1;
        ordered &= (i, j) > last;
        last = (i, j);
    }
    println!(
        "{count} {sum:016x} {}",
        if ordered { "ordered" } else { "unordered" }
    );
}

fn main() {
    let a: Vec<String> = std::env::args().collect();
    if a.len() == 2 && a[1] == "--digest" {
        return digest();
    }
    if a.len() != 5 || a[1] != "--on" {
        die(2, "usage: base --on TEXT R.csv S.csv".into())
    }
    let (r, s) = (read(&a[3], 'R'), read(&a[4], 'S'));
    let mut parser = Parser {
        t: a[2].as_bytes(),
        p: 0,
        r: &r,
        s: &s,
    };
    let pred = parser.or();
    parser.peek();
    if parser.p != a[2].len() {
        parser.bad()
    }
    let mut join = Join { r, s };
    columns(&pred, &mut |t| {
        let (table, c, side) = match t {
            Term::R(c) => (&mut join.r, c, 'R'),
            Term::S(c) => (&mut join.s, c, 'S'),
            _ => return,
        };
        if table.nums[c].is_empty() {
            table.nums[c] = (0..table.rows)
                .map(|i| {
                    number(table.text(i, c)).unwrap_or_else(|| {
                        die(
                            4,
                            format!("input: {side} row {} column {} is no number", i + 1, c + 1),
                        )
                    })
                })
                .collect();
        }
    });
    let members: &[Pred] = if let Pred::And(v) = &pred {
        v
    } else {
        std::slice::from_ref(&pred)
    };
    let keyed = std::env::var_os("BASE_LOOP").is_none();
    let best = members
        .iter()
        .filter_map(key)
        .min_by_key(|k| k.rank)
        .filter(|_| keyed);
    let text = members
        .iter()
        .find_map(|m| match m {
            Pred::Txt(Txt::R(x), Op::Eq, Txt::S(y)) | Pred::Txt(Txt::S(y), Op::Eq, Txt::R(x)) => {
                Some((*x, *y))
            }
            _ => None,
        })
        .filter(|_| keyed);
    let mut out = Out {
        buf: Vec::with_capacity(1 << 17),
        file: std::io::stdout(),
    };
    let (x, y) = (join.r.rows, join.s.rows);
    let none = u32::MAX;
    let mut next = vec![none; y];
    match (best, text) {
        (Some(k), _) if k.rank == 0 => {
            let mut head: HashMap<i128, u32> = HashMap::with_capacity(y);
            for j in (0..y).rev() {
                if let Some(v) = join.sum(&k.s, 0, j) {
                    next[j] = head.insert(v, j as u32).unwrap_or(none)
                }
            }
            for i in 0..x {
                let Some(v) = join.sum(&k.r, i, 0) else {
                    continue;
                };
                let mut j = head.get(&(v - k.low.unwrap())).copied().unwrap_or(none);
                while j != none {
                    if join.holds(&pred, i, j as usize) {
                        out.pair(i, j as usize)
                    }
                    j = next[j as usize]
                }
            }
        }
        (best, Some((c, d))) if best.as_ref().is_none_or(|k| k.rank > 2) => {
            let mut head: HashMap<&[u8], u32> = HashMap::with_capacity(y);
            for j in (0..y).rev() {
                next[j] = head.insert(join.s.text(j, d), j as u32).unwrap_or(none)
            }
            for i in 0..x {
                let mut j = head.get(join.r.text(i, c)).copied().unwrap_or(none);
                while j != none {
                    if join.holds(&pred, i, j as usize) {
                        out.pair(i, j as usize)
                    }
                    j = next[j as usize]
                }
            }
        }
        (Some(k), _) => {
            let mut index: Vec<(i128, u32)> = (0..y)
                .filter_map(|j| Some((join.sum(&k.s, 0, j)?, j as u32)))
                .collect();
            index.sort_unstable();
            let mut found = Vec::new();
            for i in 0..x {
                let Some(v) = join.sum(&k.r, i, 0) else {
                    continue;
                };
                let from = k.high.map_or(0, |h| index.partition_point(|e| e.0 < v - h));
                let to = k
                    .low
                    .map_or(index.len(), |l| index.partition_point(|e| e.0 <= v - l));
                found.clear();
                found.extend(
                    index[from..to.max(from)]
                        .iter()
                        .map(|e| e.1 as usize)
                        .filter(|&j| join.holds(&pred, i, j)),
                );
                found.sort_unstable();
                for &j in &found {
                    out.pair(i, j)
                }
            }
        }
        _ => {
            for i in 0..x {
                for j in 0..y {
                    if join.holds(&pred, i, j) {
                        out.pair(i, j)
                    }
                }
            }
        }
    }
    out.flush();
}
