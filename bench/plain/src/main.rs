//! Reads a plan, then a certificate or events of it where they are given, by serde's structs, and ends.
//!
//! It makes what `net_plan` makes of the same texts: bytes for hex, indexes for names, numbers within their bounds. It
//! does not tell which fault a text has.
//!
//!     plain PLAN [certificate CERTIFICATE | events EVENTS]
use serde::de::{Deserializer, Error};
use serde::Deserialize;
use std::collections::HashMap;
use std::process::ExitCode;

const MOST_BYTES: usize = 16_777_216;
const MOST_EVENTS: usize = 100_000;

/// Hex text.
#[derive(Debug)]
struct Hex(Vec<u8>);

fn digit(byte: u8) -> Option<u8> {
    (byte as char).to_digit(16).map(|digit| digit as u8)
}

impl<'de> Deserialize<'de> for Hex {
    fn deserialize<D: Deserializer<'de>>(deserializer: D) -> Result<Hex, D::Error> {
        let text = <&str>::deserialize(deserializer)?.as_bytes();
        if text.len() % 2 != 0 {
            return Err(D::Error::custom("no hex"));
        }
        let pairs = text.chunks_exact(2);
        let bytes: Option<Vec<u8>> = pairs.map(|pair| Some(digit(pair[0])? << 4 | digit(pair[1])?)).collect();
        bytes.map(Hex).ok_or_else(|| D::Error::custom("no hex"))
    }
}

#[derive(Deserialize)]
#[serde(deny_unknown_fields)]
struct PlanText<'t> {
    format: u64,
    unit: Option<u16>,
    #[serde(borrow)]
    buses: Vec<BusText<'t>>,
    nodes: Vec<NodeText<'t>>,
}

#[derive(Deserialize)]
#[serde(deny_unknown_fields)]
struct BusText<'t> {
    name: &'t str,
    binding: u8,
    media: u8,
}

#[derive(Deserialize)]
#[serde(rename_all = "lowercase")]
enum Kind {
    Bridge,
    Endpoint,
}

#[derive(Deserialize)]
#[serde(deny_unknown_fields)]
struct NodeText<'t> {
    name: &'t str,
    kind: Kind,
    eid: u8,
    owner: Option<&'t str>,
    pool: Option<Pool>,
    #[serde(borrow)]
    ports: Vec<PortText<'t>>,
    rows: Vec<RowText<'t>>,
    terminus: Option<Terminus>,
}

#[derive(Deserialize)]
#[serde(deny_unknown_fields)]
struct Pool {
    first: u8,
    size: u8,
}

#[derive(Deserialize)]
#[serde(deny_unknown_fields)]
struct PortText<'t> {
    bus: &'t str,
    address: Hex,
}

#[derive(Deserialize)]
#[serde(deny_unknown_fields)]
struct RowText<'t> {
    first: u8,
    size: u8,
    port: u8,
    next: &'t str,
}

#[derive(Deserialize)]
#[serde(deny_unknown_fields)]
struct Terminus {
    tid: u8,
    records: Vec<Record>,
}

#[derive(Deserialize)]
#[serde(deny_unknown_fields)]
struct Record {
    handle: u32,
    next: u32,
    bytes: Hex,
}

#[derive(Deserialize)]
#[serde(deny_unknown_fields)]
struct CertificateText<'t> {
    format: u64,
    #[serde(borrow)]
    levels: Vec<LevelText<'t>>,
    #[serde(borrow)]
    places: Vec<PlacesText<'t>>,
    #[serde(borrow)]
    ranks: Vec<RanksText<'t>>,
}

#[derive(Deserialize)]
#[serde(deny_unknown_fields)]
struct LevelText<'t> {
    level: u8,
    node: &'t str,
}

#[derive(Deserialize)]
#[serde(deny_unknown_fields)]
struct PlacesText<'t> {
    node: &'t str,
    places: Vec<u16>,
}

#[derive(Deserialize)]
#[serde(deny_unknown_fields)]
struct RanksText<'t> {
    node: &'t str,
    ranges: Vec<Range>,
}

#[derive(Deserialize)]
#[serde(deny_unknown_fields)]
struct Range {
    first: u8,
    rank: u8,
    size: u8,
}

#[derive(Deserialize)]
#[serde(deny_unknown_fields)]
struct EventsText<'t> {
    format: u64,
    #[serde(borrow)]
    events: Vec<EventText<'t>>,
}

#[derive(Deserialize)]
#[serde(tag = "do", rename_all = "lowercase", deny_unknown_fields)]
enum EventText<'t> {
    Put { node: &'t str, bytes: Hex },
    Move { flight: u32, keep: bool },
    Lose { flight: u32 },
    Expire { node: &'t str, source: u8, tag: u8, owner: u8 },
    Answer { node: &'t str },
    Switch { node: &'t str },
    Walk { node: &'t str, eid: u8, tag: u8, count: u16 },
    Ask { walker: u32 },
    Collected { walker: u32 },
}

/// Where each name stands first.
type Indexes<'t> = HashMap<&'t str, usize>;

fn indexes<'t>(names: impl Iterator<Item = &'t str>) -> Option<Indexes<'t>> {
    let mut indexes = HashMap::new();
    for (index, name) in names.enumerate() {
        let is_name = |byte: u8| byte.is_ascii_alphanumeric() || b"-_.".contains(&byte);
        if name.is_empty() || name.len() > 32 || !name.bytes().all(is_name) {
            return None;
        }
        indexes.entry(name).or_insert(index);
    }
    Some(indexes)
}

/// The text of a plan as it is, with indexes for the names that refer to buses and nodes.
struct Plan<'t> {
    text: PlanText<'t>,
    nodes: Indexes<'t>,
    ways: Vec<Way>,
}

/// Where the owner, the ports and the rows of a node lead.
struct Way {
    owner: Option<usize>,
    buses: Vec<usize>,
    rows: Vec<usize>,
}

fn way(node: &NodeText, buses: &Indexes, nodes: &Indexes) -> Option<Way> {
    let is_within = node.ports.len() <= 32
        && node.rows.len() <= 256
        && node.ports.iter().all(|port| port.address.0.len() <= 8)
        && node.rows.iter().all(|row| row.port <= 31);
    let terminus = node.terminus.iter();
    let is_lawful = |terminus: &Terminus| terminus.tid <= 254 && terminus.records.len() <= 4096;
    if !is_within || !terminus.clone().all(is_lawful) {
        return None;
    }
    let owner = match node.owner {
        Some(owner) => Some(*nodes.get(owner)?),
        None => None,
    };
    Some(Way {
        owner,
        buses: node.ports.iter().map(|port| buses.get(port.bus).copied()).collect::<Option<_>>()?,
        rows: node.rows.iter().map(|row| nodes.get(row.next).copied()).collect::<Option<_>>()?,
    })
}

fn plan(text: &str) -> Option<Plan<'_>> {
    let text: PlanText = serde_json::from_str(text).ok()?;
    let is_unit = match (text.format, text.unit) {
        (1, None) => true,
        (2, Some(unit)) => (64..=1024).contains(&unit),
        _ => false,
    };
    let buses = indexes(text.buses.iter().map(|bus| bus.name))?;
    let nodes = indexes(text.nodes.iter().map(|node| node.name))?;
    if !is_unit || text.buses.len() > 64 || text.nodes.len() > 64 || buses.len() < text.buses.len() {
        return None;
    }
    let ways = text.nodes.iter().map(|node| way(node, &buses, &nodes)).collect::<Option<_>>()?;
    Some(Plan { text, nodes, ways })
}

/// Whether the ranges ascend, apart from each other.
fn ascends(ranges: &[Range]) -> bool {
    let mut from = 0;
    ranges.iter().all(|range| {
        let is_after = from <= u16::from(range.first) && range.rank > 0 && range.size > 0;
        from = u16::from(range.first) + u16::from(range.size);
        is_after && from <= 256
    })
}

/// The indexes of the nodes of a list's entries, where no node has two.
fn entries<'t>(plan: &Plan, names: impl Iterator<Item = &'t str>) -> Option<Vec<usize>> {
    let mut is_taken = vec![false; plan.text.nodes.len()];
    names
        .map(|name| {
            let index = *plan.nodes.get(name)?;
            (!std::mem::replace(&mut is_taken[index], true)).then_some(index)
        })
        .collect()
}

fn certificate(plan: &Plan, text: &str) -> Option<usize> {
    let text: CertificateText = serde_json::from_str(text).ok()?;
    let is_right = text.format == 1
        && text.levels.iter().all(|level| (1..=63).contains(&level.level))
        && text.places.iter().all(|node| node.places.iter().all(|place| *place < 4096))
        && text.ranks.iter().all(|node| ascends(&node.ranges));
    let levels = entries(plan, text.levels.iter().map(|level| level.node))?;
    let places = entries(plan, text.places.iter().map(|node| node.node))?;
    let ranks = entries(plan, text.ranks.iter().map(|node| node.node))?;
    is_right.then_some(levels.len() + places.len() + ranks.len())
}

/// The sum of the indexes of the nodes that events name, so that all are looked up.
fn events(plan: &Plan, text: &str) -> Option<usize> {
    let text: EventsText = serde_json::from_str(text).ok()?;
    if !(1..=3).contains(&text.format) || text.events.len() > MOST_EVENTS {
        return None;
    }
    let at = |node: &str, is_right: bool| plan.nodes.get(node).copied().filter(|_| is_right);
    let indexes = text.events.iter().map(|event| match event {
        EventText::Put { node, bytes } => at(node, bytes.0.len() < MOST_BYTES),
        EventText::Move { flight, keep } => Some(*flight as usize + usize::from(*keep)),
        EventText::Expire { node, source, tag, owner } => at(node, *source > 0 && *tag < 8 && *owner < 2),
        EventText::Answer { node } => at(node, true),
        EventText::Switch { node } => at(node, text.format > 1),
        EventText::Walk { node, eid, tag, count } => at(
            node,
            text.format > 2 && (8..=254).contains(eid) && *tag < 8 && (8..=4079).contains(count),
        ),
        EventText::Lose { flight } => Some(*flight as usize),
        EventText::Ask { walker } | EventText::Collected { walker } => (text.format > 2).then_some(*walker as usize),
    });
    indexes.sum()
}

fn text_at(path: &str) -> Option<String> {
    std::fs::read_to_string(path).ok().filter(|text| text.len() <= MOST_BYTES)
}

/// A number that rests on everything that was read, so that none of it can be left out.
fn sum(words: &[String]) -> Option<usize> {
    let text = text_at(words.first()?)?;
    let plan = plan(&text)?;
    let second = match words.get(1).map(String::as_str) {
        None => 0,
        Some("certificate") => certificate(&plan, &text_at(words.get(2)?)?)?,
        Some("events") => events(&plan, &text_at(words.get(2)?)?)?,
        Some(_) => return None,
    };
    let buses = plan.text.buses.iter().map(|bus| usize::from(bus.binding) + usize::from(bus.media));
    let nodes = plan.text.nodes.iter().map(|node| {
        let pools = node.pool.iter().map(|pool| usize::from(pool.first) + usize::from(pool.size));
        let rows = node.rows.iter().map(|row| usize::from(row.first) + usize::from(row.size));
        let records = node.terminus.iter().flat_map(|terminus| &terminus.records);
        let records = records.map(|record| record.bytes.0.len() ^ record.handle as usize ^ record.next as usize);
        let kind = matches!(node.kind, Kind::Bridge);
        usize::from(node.eid) + usize::from(kind) + pools.sum::<usize>() + rows.sum::<usize>() + records.sum::<usize>()
    });
    let ways = plan.ways.iter().map(|way| {
        way.owner.unwrap_or(0) + way.buses.iter().sum::<usize>() + way.rows.iter().sum::<usize>()
    });
    Some(second + buses.sum::<usize>() + nodes.sum::<usize>() + ways.sum::<usize>())
}

fn main() -> ExitCode {
    let words: Vec<String> = std::env::args().skip(1).collect();
    match sum(&words) {
        Some(sum) => {
            std::hint::black_box(sum);
            ExitCode::SUCCESS
        }
        None => ExitCode::from(2),
    }
}
