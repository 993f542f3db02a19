//! Checks a plan and its certificate, by a reader written by hand over borrowed bytes: keys in any order, hex by a table.
//!
//! It tells that a text can't be read, but not why. It refuses escapes in names and doesn't mind want of memory.
//!
//!     by_hand check PLAN CERTIFICATE
//!     by_hand read PLAN CERTIFICATE
use std::collections::{HashMap, HashSet};
#[derive(PartialEq, Clone, Copy)]
pub enum Kind {
    Bridge,
    Endpoint,
}
pub struct Bus<'a> {
    pub name: &'a str,
    pub binding: u8,
    pub media: u8,
}
pub struct Pool {
    pub first: u8,
    pub size: u8,
}
pub struct Port<'a> {
    pub bus: &'a str,
    pub address: Bytes,
}
pub struct Row<'a> {
    pub first: u8,
    pub size: u8,
    pub port: u8,
    pub next: &'a str,
}
#[derive(Clone, Copy)]
pub struct Bytes {
    pub at: u32,
    pub len: u32,
}
pub struct Rec {
    pub handle: u32,
    pub next: u32,
    pub bytes: Bytes,
}
pub struct Term {
    pub tid: u8,
    pub records: Vec<Rec>,
}
pub struct Node<'a> {
    pub name: &'a str,
    pub kind: Kind,
    pub eid: u8,
    pub owner: Option<&'a str>,
    pub pool: Option<Pool>,
    pub ports: Vec<Port<'a>>,
    pub rows: Vec<Row<'a>>,
    pub terminus: Option<Term>,
}
pub struct Plan<'a> {
    pub buses: Vec<Bus<'a>>,
    pub nodes: Vec<Node<'a>>,
    pub block: Vec<u8>,
}
pub struct Level<'a> {
    pub level: u8,
    pub node: &'a str,
}
pub struct Places<'a> {
    pub node: &'a str,
    pub places: Vec<u16>,
}
pub struct Range {
    pub first: u8,
    pub rank: u8,
    pub size: u16,
}
pub struct Ranks<'a> {
    pub node: &'a str,
    pub ranges: Vec<Range>,
}
pub struct Certificate<'a> {
    pub levels: Vec<Level<'a>>,
    pub places: Vec<Places<'a>>,
    pub ranks: Vec<Ranks<'a>>,
}

pub struct R<'a> {
    t: &'a [u8],
    i: usize,
    block: Vec<u8>,
}
type O<T> = Option<T>;
const NIB: [u8; 256] = {
    let mut t = [255u8; 256];
    let mut i = 0;
    while i < 10 {
        t[b'0' as usize + i] = i as u8;
        i += 1;
    }
    i = 0;
    while i < 6 {
        t[b'a' as usize + i] = 10 + i as u8;
        t[b'A' as usize + i] = 10 + i as u8;
        i += 1;
    }
    t
};
impl<'a> R<'a> {
    #[inline(always)]
    fn ws(&mut self) -> u8 {
        loop {
            match self.t.get(self.i) {
                Some(b' ' | b'\n' | b'\r' | b'\t') => self.i += 1,
                Some(c) => return *c,
                None => return 0,
            }
        }
    }
    #[inline(always)]
    fn eat(&mut self, c: u8) -> O<()> {
        if self.ws() == c {
            self.i += 1;
            Some(())
        } else {
            None
        }
    }
    #[inline(always)]
    fn str(&mut self) -> O<&'a str> {
        self.eat(b'"')?;
        let s = self.i;
        loop {
            let c = *self.t.get(self.i)?;
            if c == b'"' {
                break;
            }
            if c == b'\\' || c < 32 {
                return None;
            }
            self.i += 1;
        }
        self.i += 1;
        Some(unsafe { std::str::from_utf8_unchecked(&self.t[s..self.i - 1]) })
    }
    #[inline(always)]
    fn num(&mut self) -> O<u32> {
        let c = self.ws();
        if !c.is_ascii_digit() {
            return None;
        }
        let mut v = (c - b'0') as u64;
        self.i += 1;
        let mut k = 0;
        while let Some(d) = self.t.get(self.i).filter(|d| d.is_ascii_digit()) {
            v = v * 10 + (d - b'0') as u64;
            k += 1;
            if k > 9 || (k == 1 && c == b'0') {
                return None;
            }
            self.i += 1;
        }
        u32::try_from(v).ok()
    }
    #[inline(always)]
    fn byte(&mut self) -> O<u8> {
        u8::try_from(self.num()?).ok()
    }
    fn hex(&mut self) -> O<Bytes> {
        let s = self.str()?.as_bytes();
        if s.len() % 2 != 0 {
            return None;
        }
        let at = self.block.len() as u32;
        let mut bad = 0u8;
        self.block.extend(s.chunks_exact(2).map(|p| {
            let (a, b) = (NIB[p[0] as usize], NIB[p[1] as usize]);
            bad |= a | b;
            a << 4 | b & 15
        }));
        if bad & 0xf0 != 0 {
            return None;
        }
        Some(Bytes {
            at,
            len: (s.len() / 2) as u32,
        })
    }
    fn word(&mut self, w: &[u8]) -> bool {
        self.ws();
        if self.t[self.i..].starts_with(w) {
            self.i += w.len();
            true
        } else {
            false
        }
    }
    #[inline(always)]
    fn list<T>(&mut self, cap: usize, mut f: impl FnMut(&mut Self) -> O<T>) -> O<Vec<T>> {
        self.eat(b'[')?;
        let mut v = Vec::with_capacity(cap);
        if self.ws() == b']' {
            self.i += 1;
            return Some(v);
        }
        loop {
            v.push(f(self)?);
            match self.ws() {
                b',' => self.i += 1,
                b']' => {
                    self.i += 1;
                    return Some(v);
                }
                _ => return None,
            }
        }
    }
    #[inline(always)]
    fn object(&mut self, mut f: impl FnMut(&mut Self, &'a str) -> O<()>) -> O<()> {
        self.eat(b'{')?;
        if self.ws() == b'}' {
            self.i += 1;
            return Some(());
        }
        loop {
            let k = self.str()?;
            self.eat(b':')?;
            f(self, k)?;
            match self.ws() {
                b',' => {
                    self.i += 1;
                }
                b'}' => {
                    self.i += 1;
                    return Some(());
                }
                _ => return None,
            }
        }
    }
}
#[inline(always)]
fn put<T>(o: &mut O<T>, v: T) -> O<()> {
    if o.is_some() {
        return None;
    }
    *o = Some(v);
    Some(())
}
fn row<'a>(r: &mut R<'a>) -> O<Row<'a>> {
    let (mut f, mut s, mut p, mut n) = (None, None, None, None);
    r.object(|r, k| match k {
        "first" => put(&mut f, r.byte()?),
        "size" => put(&mut s, r.byte()?),
        "port" => put(&mut p, r.byte()?),
        "next" => put(&mut n, r.str()?),
        _ => None,
    })?;
    Some(Row {
        first: f?,
        size: s?,
        port: p?,
        next: n?,
    })
}
fn rec(r: &mut R) -> O<Rec> {
    let (mut h, mut n, mut b) = (None, None, None);
    r.object(|r, k| match k {
        "handle" => put(&mut h, r.num()?),
        "next" => put(&mut n, r.num()?),
        "bytes" => put(&mut b, r.hex()?),
        _ => None,
    })?;
    Some(Rec {
        handle: h?,
        next: n?,
        bytes: b?,
    })
}
fn node<'a>(r: &mut R<'a>) -> O<Node<'a>> {
    let (mut name, mut kind, mut eid, mut owner, mut pool, mut ports, mut rows, mut term) =
        (None, None, None, None, None, None, None, None);
    r.object(|r, k| match k {
        "name" => put(&mut name, r.str()?),
        "kind" => put(
            &mut kind,
            match r.str()? {
                "bridge" => Kind::Bridge,
                "endpoint" => Kind::Endpoint,
                _ => return None,
            },
        ),
        "eid" => put(&mut eid, r.byte()?),
        "owner" => put(
            &mut owner,
            if r.word(b"null") {
                None
            } else {
                Some(r.str()?)
            },
        ),
        "pool" => put(
            &mut pool,
            if r.word(b"null") {
                None
            } else {
                let (mut f, mut s) = (None, None);
                r.object(|r, k| match k {
                    "first" => put(&mut f, r.byte()?),
                    "size" => put(&mut s, r.byte()?),
                    _ => None,
                })?;
                Some(Pool {
                    first: f?,
                    size: s?,
                })
            },
        ),
        "ports" => put(
            &mut ports,
            r.list(4, |r| {
                let (mut b, mut a) = (None, None);
                r.object(|r, k| match k {
                    "bus" => put(&mut b, r.str()?),
                    "address" => put(&mut a, r.hex()?),
                    _ => None,
                })?;
                Some(Port {
                    bus: b?,
                    address: a?,
                })
            })?,
        ),
        "rows" => put(&mut rows, r.list(16, row)?),
        "terminus" => put(
            &mut term,
            if r.word(b"null") {
                None
            } else {
                let (mut t, mut l) = (None, None);
                r.object(|r, k| match k {
                    "tid" => put(&mut t, r.byte()?),
                    "records" => put(&mut l, r.list(64, rec)?),
                    _ => None,
                })?;
                Some(Term {
                    tid: t?,
                    records: l?,
                })
            },
        ),
        _ => None,
    })?;
    Some(Node {
        name: name?,
        kind: kind?,
        eid: eid?,
        owner: owner?,
        pool: pool?,
        ports: ports?,
        rows: rows?,
        terminus: term?,
    })
}
pub fn plan(t: &[u8]) -> O<Plan<'_>> {
    std::str::from_utf8(t).ok()?;
    let mut r = R {
        t,
        i: 0,
        block: vec![],
    };
    let (mut f, mut b, mut n) = (None, None, None);
    r.object(|r, k| match k {
        "format" => put(&mut f, r.num()?),
        "buses" => put(
            &mut b,
            r.list(8, |r| {
                let (mut n, mut b, mut m) = (None, None, None);
                r.object(|r, k| match k {
                    "name" => put(&mut n, r.str()?),
                    "binding" => put(&mut b, r.byte()?),
                    "media" => put(&mut m, r.byte()?),
                    _ => None,
                })?;
                Some(Bus {
                    name: n?,
                    binding: b?,
                    media: m?,
                })
            })?,
        ),
        "nodes" => put(&mut n, r.list(8, node)?),
        _ => None,
    })?;
    if r.ws() != 0 || f? != 1 {
        return None;
    }
    Some(Plan {
        buses: b?,
        nodes: n?,
        block: r.block,
    })
}
pub fn certificate(t: &[u8]) -> O<Certificate<'_>> {
    std::str::from_utf8(t).ok()?;
    let mut r = R {
        t,
        i: 0,
        block: vec![],
    };
    let (mut f, mut l, mut p, mut k2) = (None, None, None, None);
    r.object(|r, k| match k {
        "format" => put(&mut f, r.num()?),
        "levels" => put(
            &mut l,
            r.list(0, |r| {
                let (mut l, mut n) = (None, None);
                r.object(|r, k| match k {
                    "level" => put(&mut l, r.byte()?),
                    "node" => put(&mut n, r.str()?),
                    _ => None,
                })?;
                Some(Level {
                    level: l?,
                    node: n?,
                })
            })?,
        ),
        "places" => put(
            &mut p,
            r.list(0, |r| {
                let (mut p, mut n) = (None, None);
                r.object(|r, k| match k {
                    "places" => put(&mut p, r.list(64, |r| u16::try_from(r.num()?).ok())?),
                    "node" => put(&mut n, r.str()?),
                    _ => None,
                })?;
                Some(Places {
                    places: p?,
                    node: n?,
                })
            })?,
        ),
        "ranks" => put(
            &mut k2,
            r.list(0, |r| {
                let (mut g, mut n) = (None, None);
                r.object(|r, k| match k {
                    "ranges" => put(
                        &mut g,
                        r.list(16, |r| {
                            let (mut f, mut k1, mut s) = (None, None, None);
                            r.object(|r, k| match k {
                                "first" => put(&mut f, r.byte()?),
                                "rank" => put(&mut k1, r.byte()?),
                                "size" => put(&mut s, u16::try_from(r.num()?).ok()?),
                                _ => None,
                            })?;
                            Some(Range {
                                first: f?,
                                rank: k1?,
                                size: s?,
                            })
                        })?,
                    ),
                    "node" => put(&mut n, r.str()?),
                    _ => None,
                })?;
                Some(Ranks {
                    ranges: g?,
                    node: n?,
                })
            })?,
        ),
        _ => None,
    })?;
    if r.ws() != 0 || f? != 1 {
        return None;
    }
    Some(Certificate {
        levels: l?,
        places: p?,
        ranks: k2?,
    })
}

/// Names resolved to positions; levels, ranks and places as total tables.
pub struct Net<'a> {
    p: &'a Plan<'a>,
    owner: Vec<Option<usize>>,
    next: Vec<Vec<usize>>,
    bus: Vec<Vec<usize>>,
    level: Vec<Option<u8>>,
    rank: Vec<[u8; 256]>,
    places: Vec<&'a [u16]>,
}

impl<'a> Net<'a> {
    #[inline(always)]
    fn bytes(&self, r: &Rec) -> &[u8] {
        &self.p.block[r.bytes.at as usize..][..r.bytes.len as usize]
    }
}
pub fn resolve<'a>(p: &'a Plan<'a>, c: &'a Certificate<'a>) -> Option<Net<'a>> {
    if p.buses.len() > 64 || p.nodes.len() > 64 {
        return None;
    }
    let (mut node, mut bus) = (HashMap::new(), HashMap::new());
    for (i, n) in p.nodes.iter().enumerate() {
        node.entry(n.name).or_insert(i);
    }
    for (i, b) in p.buses.iter().enumerate() {
        if bus.insert(b.name, i).is_some() {
            return None;
        }
    }
    let k = p.nodes.len();
    let mut n = Net {
        p,
        owner: vec![None; k],
        next: vec![],
        bus: vec![],
        level: vec![None; k],
        rank: vec![[0; 256]; k],
        places: vec![&[]; k],
    };
    for (i, x) in p.nodes.iter().enumerate() {
        if x.ports.len() > 32 || x.rows.len() > 256 || x.ports.iter().any(|q| q.address.len > 8) {
            return None;
        }
        if x.terminus
            .as_ref()
            .is_some_and(|t| t.records.len() > 4096 || t.tid == 255)
        {
            return None;
        }
        if let Some(o) = &x.owner {
            n.owner[i] = Some(*node.get(*o)?);
        }
        n.next.push(
            x.rows
                .iter()
                .map(|r| node.get(r.next).copied())
                .collect::<Option<_>>()?,
        );
        n.bus.push(
            x.ports
                .iter()
                .map(|q| bus.get(q.bus).copied())
                .collect::<Option<_>>()?,
        );
    }
    for l in &c.levels {
        if !(1..=63).contains(&l.level) || n.level[*node.get(l.node)?].replace(l.level).is_some() {
            return None;
        }
    }
    let mut seen = HashSet::new();
    for q in &c.places {
        let i = *node.get(q.node)?;
        if !seen.insert(i) {
            return None;
        }
        n.places[i] = &q.places;
    }
    seen.clear();
    for r in &c.ranks {
        let i = *node.get(r.node)?;
        if !seen.insert(i) {
            return None;
        }
        let mut end = 0;
        for g in &r.ranges {
            let (a, b) = (g.first as usize, g.first as usize + g.size as usize);
            if g.rank == 0 || g.size == 0 || b > 256 || a < end {
                return None;
            }
            n.rank[i][a..b].fill(g.rank);
            end = b;
        }
    }
    Some(n)
}

pub struct Fault {
    pub rule: u8,
    pub node: usize,
    pub entry: Option<usize>,
    pub eid: Option<u8>,
}

fn lawful(first: u8, size: u8) -> bool {
    size > 0 && first >= 8 && first as u16 + size as u16 <= 255
}
fn covers(first: u8, size: u8, e: u8) -> bool {
    e >= first && (e as u16) < first as u16 + size as u16
}
fn meet(a: (u8, u8), b: (u8, u8)) -> bool {
    let end = |x: (u8, u8)| x.0 as u16 + x.1 as u16;
    a.1 > 0 && b.1 > 0 && (a.0 as u16) < end(b) && (b.0 as u16) < end(a)
}
fn range(r: &Row<'_>) -> std::ops::Range<usize> {
    r.first as usize..r.first as usize + r.size as usize
}

pub fn check(n: &Net) -> Result<(), Fault> {
    let ns = &n.p.nodes;
    let bad = |rule, node, entry, eid| {
        Err(Fault {
            rule,
            node,
            entry,
            eid,
        })
    };
    let mut names = HashSet::new();
    for (i, x) in ns.iter().enumerate() {
        if !names.insert(&x.name) {
            return bad(1, i, None, None);
        }
    }
    for (i, x) in ns.iter().enumerate() {
        if !(8..=254).contains(&x.eid) {
            return bad(2, i, None, Some(x.eid));
        }
    }
    let mut holder = [None; 256];
    for (i, x) in ns.iter().enumerate() {
        if holder[x.eid as usize].replace(i).is_some() {
            return bad(3, i, None, Some(x.eid));
        }
    }
    for (i, x) in ns.iter().enumerate() {
        for (j, r) in x.rows.iter().enumerate() {
            if !lawful(r.first, r.size) {
                return bad(4, i, Some(j), None);
            }
        }
    }
    let mut routes = vec![[false; 256]; ns.len()];
    for (i, x) in ns.iter().enumerate() {
        for (j, r) in x.rows.iter().enumerate() {
            if routes[i][range(r)].contains(&true) {
                return bad(5, i, Some(j), None);
            }
            routes[i][range(r)].fill(true);
        }
    }
    for (i, x) in ns.iter().enumerate() {
        for (j, r) in x.rows.iter().enumerate() {
            let m = n.next[i][j];
            let ok = n.bus[i]
                .get(r.port as usize)
                .is_some_and(|b| n.bus[m].contains(b));
            if !ok || m == i || (r.size > 1 && ns[m].kind != Kind::Bridge) {
                return bad(6, i, Some(j), None);
            }
        }
    }
    let level = |i: usize| {
        if n.owner[i].is_none() {
            0
        } else {
            n.level[i].unwrap_or(0)
        }
    };
    for i in 0..ns.len() {
        if let Some(o) = n.owner[i] {
            let shared = n.bus[i].iter().any(|b| n.bus[o].contains(b));
            if ns[o].kind != Kind::Bridge || !shared || level(o) >= level(i) {
                return bad(7, i, None, None);
            }
        }
    }
    let pool = |i: usize| ns[i].pool.as_ref().map(|p| (p.first, p.size));
    for (i, x) in ns.iter().enumerate() {
        let owned = n.owner[i].map_or(true, |o| pool(o).is_some_and(|p| covers(p.0, p.1, x.eid)));
        let hit = (0..ns.len()).any(|m| {
            n.owner[m] == n.owner[i]
                && ns[m].kind == Kind::Bridge
                && pool(m).is_some_and(|p| covers(p.0, p.1, x.eid))
        });
        if !owned || hit {
            return bad(8, i, None, Some(x.eid));
        }
    }
    for i in 0..ns.len() {
        let Some(p) = pool(i) else { continue };
        let inside = |q: (u8, u8)| q.0 <= p.0 && p.0 as u16 + p.1 as u16 <= q.0 as u16 + q.1 as u16;
        let ok = ns[i].kind == Kind::Bridge
            && lawful(p.0, p.1)
            && n.owner[i].map_or(true, |o| pool(o).is_some_and(inside))
            && !(0..i).any(|m| n.owner[m] == n.owner[i] && pool(m).is_some_and(|q| meet(p, q)));
        if !ok {
            return bad(9, i, None, None);
        }
    }
    for (i, x) in ns.iter().enumerate() {
        for (j, r) in x.rows.iter().enumerate() {
            let m = n.next[i][j];
            for e in range(r) {
                if x.eid as usize != e && n.rank[m][e] >= n.rank[i][e] {
                    return bad(10, i, Some(j), Some(e as u8));
                }
            }
        }
    }
    for (i, x) in ns.iter().enumerate() {
        for (j, r) in x.rows.iter().enumerate() {
            let m = n.next[i][j];
            for e in range(r) {
                let other = holder[e].is_some_and(|h| h != i);
                if other
                    && !(ns[m].eid as usize == e || (ns[m].kind == Kind::Bridge && routes[m][e]))
                {
                    return bad(11, i, Some(j), Some(e as u8));
                }
            }
        }
    }
    let mut index: Vec<HashMap<u32, usize>> = vec![HashMap::new(); ns.len()];
    for (i, x) in ns.iter().enumerate() {
        let Some(t) = &x.terminus else { continue };
        if t.records.is_empty() {
            return bad(12, i, None, None);
        }
        index[i].reserve(t.records.len());
        for (j, r) in t.records.iter().enumerate() {
            if r.handle == 0 || index[i].insert(r.handle, j).is_some() {
                return bad(12, i, Some(j), None);
            }
        }
    }
    let records = |i: usize| {
        ns[i]
            .terminus
            .iter()
            .flat_map(|t| t.records.iter())
            .enumerate()
    };
    for i in 0..ns.len() {
        for (j, r) in records(i) {
            if !matches!(read_record(n.bytes(r)), Ok(h) if h == r.handle) {
                return bad(13, i, Some(j), None);
            }
        }
    }
    for i in 0..ns.len() {
        let k = index[i].len();
        let mut used = vec![false; k];
        let place = |j: usize| n.places[i].get(j).map(|p| *p as usize);
        for (j, r) in records(i) {
            let Some(p) = place(j) else {
                return bad(14, i, Some(j), None);
            };
            if p >= k || std::mem::replace(&mut used[p], true) {
                return bad(14, i, Some(j), None);
            }
            let ok = if p == k - 1 {
                r.next == 0
            } else {
                index[i]
                    .get(&r.next)
                    .is_some_and(|m| place(*m) == Some(p + 1))
            };
            if !ok {
                return bad(14, i, Some(j), None);
            }
        }
    }
    for i in 0..ns.len() {
        for (j, r) in records(i) {
            let b = n.bytes(r);
            if b[5] == 1 && b[12] == 1 && b[16] == 1 {
                if b[17] != 1 {
                    return bad(15, i, Some(j), None);
                }
                let e = b[18];
                let ok = holder[e as usize]
                    .is_some_and(|h| ns[h].terminus.as_ref().is_some_and(|t| t.tid == b[13]));
                if !ok {
                    return bad(15, i, Some(j), Some(e));
                }
            }
        }
    }
    for (i, x) in ns.iter().enumerate() {
        let k = x.terminus.as_ref().map_or(0, |t| t.records.len());
        if (n.owner[i].is_none() && n.level[i].is_some()) || n.places[i].len() > k {
            return bad(16, i, None, None);
        }
        for e in 0..256 {
            if n.rank[i][e] > 0 && (x.eid as usize == e || !routes[i][e]) {
                return bad(16, i, None, Some(e as u8));
            }
        }
    }
    Ok(())
}

/// D01 to D06 (04 F7); the record's handle.
pub fn read_record(b: &[u8]) -> Result<u32, &'static str> {
    if b.len() < 10 {
        return Err("D01");
    }
    if b[4] != 1 {
        return Err("D02");
    }
    if u16::from_le_bytes([b[8], b[9]]) as usize != b.len() - 10 {
        return Err("D03");
    }
    let body = &b[10..];
    let at = |i: usize| body.get(i).map(|x| *x as usize).ok_or("D04");
    let need = match b[5] {
        1 => 8 + at(7)?,
        2 => {
            const W: [usize; 7] = [1, 1, 2, 2, 4, 4, 4];
            let d = match at(22)? {
                s @ 0..=5 => W[s],
                _ => return Err("D06"),
            };
            let k = 23 + 4 + 4 + 2 + 2 + d + 2 + 4 + 4 + 2 * d; // rangeFieldFormat
            let r = match at(k)? {
                s @ 0..=6 => W[s],
                _ => return Err("D06"),
            };
            k + 2 + 9 * r
        }
        4 => {
            let mut k = 13;
            for _ in 0..at(12)? {
                k += 3 + at(k + 2)?;
            }
            k
        }
        15 => 10 + 6 * at(9)?,
        _ => body.len(),
    };
    if body.len() < need {
        return Err("D04");
    }
    if body.len() > need {
        return Err("D05");
    }
    Ok(u32::from_le_bytes([b[0], b[1], b[2], b[3]]))
}

fn main() {
    let a: Vec<String> = std::env::args().collect();
    let p = std::fs::read(&a[2]).unwrap();
    let c = std::fs::read(&a[3]).unwrap();
    let Some(p) = plan(&p) else {
        eprintln!("unreadable plan");
        std::process::exit(2)
    };
    let Some(c) = certificate(&c) else {
        eprintln!("unreadable certificate");
        std::process::exit(2)
    };
    if a[1] == "read" {
        println!("{}", p.nodes.len() + c.ranks.len());
        std::process::exit(0)
    }
    let Some(n) = resolve(&p, &c) else {
        eprintln!("unreadable names or ranges");
        std::process::exit(2)
    };
    match check(&n) {
        Ok(()) => println!("yes"),
        Err(f) => {
            println!("fault C{:02} node {}", f.rule, p.nodes[f.node].name);
            std::process::exit(1)
        }
    }
    std::process::exit(0)
}
