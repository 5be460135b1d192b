//! A plain speaker of the paths that are timed: Hellos, IHUs, updates, dump requests, ticks and
//! sending. Rust as one writes it: sorted `Vec`s, a `VecDeque`, least deadlines that are kept, and
//! one flag for 'all selections are current'. It sends the same octets as the proved speaker.
//!
//! What the timed paths don't need is left out: retractions, requests for a seqno, the second kind
//! of Hellos, IPv6, and refusals.

use crate::plain::{self, Content, Message, Metric, Prefix, RouterId, Seqno};
use crate::plain_builder::Builder;
use std::collections::VecDeque;
use std::net::{IpAddr, Ipv4Addr};

const MAX_PENDING: usize = 4096;
const INFINITE: u16 = u16::MAX;

#[derive(Clone, Copy, PartialEq, Eq, PartialOrd, Ord)]
struct Peer {
    iface: u8,
    addr: IpAddr,
}

#[derive(Clone, Copy, PartialEq, Eq, PartialOrd, Ord)]
struct Key(IpAddr, u8);

fn key(prefix: Prefix) -> Key {
    Key(prefix.addr, prefix.length)
}

#[derive(Clone, Copy)]
struct Link {
    marks: u16,
    expected: u16,
    interval: u16,
    hello_due: u64,
    txcost: u16,
    txcost_due: u64,
}

impl Link {
    fn cost(&self) -> u16 {
        if (self.marks & 7).count_ones() >= 2 {
            self.txcost
        } else {
            INFINITE
        }
    }
}

#[derive(Clone, Copy)]
struct Route {
    router: RouterId,
    seqno: u16,
    metric: u16,
    interval: u16,
    deadline: u64,
}

#[derive(Clone, Copy)]
struct Selection {
    peer: Peer,
    route: Route,
}

#[derive(Clone, Copy)]
struct Distance {
    seqno: u16,
    metric: u16,
    due: u64,
}

#[derive(Clone, Copy, Default)]
struct Interface {
    hello_seqno: u16,
    hello_due: u64,
    ihu_due: u64,
    update_due: u64,
}

#[derive(Clone, Copy)]
enum Item {
    Hello(u8),
    Ihu(Peer),
    Update(u8, Option<IpAddr>, Prefix),
}

/// A speaker with 8 interfaces: interface n is 10.n.0.1/16.
pub struct Speaker {
    own: RouterId,
    interfaces: Vec<Interface>,
    neighbours: Vec<(Peer, Link)>,
    routes: Vec<((Key, Peer), Route)>,
    selections: Vec<(Key, Selection)>,
    sources: Vec<((Key, [u8; 8]), Distance)>,
    pending: VecDeque<Item>,
    links_due: u64,
    routes_due: u64,
    sources_due: u64,
    is_settled: bool,
}

const HELLO: u16 = 400;

fn is_less(a: u16, b: u16) -> bool {
    a != b && b.wrapping_sub(a) < 0x8000
}

fn is_better(seqno: u16, metric: u16, than: &Distance) -> bool {
    is_less(than.seqno, seqno) || (seqno == than.seqno && metric < than.metric)
}

fn add(a: u16, b: u16) -> u16 {
    a.saturating_add(b)
}

impl Speaker {
    pub fn new() -> Speaker {
        Speaker {
            own: RouterId::new([0, 0, 0, 0, 0, 0, 0, 9]).expect("not reserved"),
            interfaces: vec![Interface::default(); 8],
            neighbours: Vec::with_capacity(64),
            routes: Vec::with_capacity(256),
            selections: Vec::with_capacity(256),
            sources: Vec::with_capacity(512),
            pending: VecDeque::with_capacity(MAX_PENDING),
            links_due: u64::MAX,
            routes_due: u64::MAX,
            sources_due: u64::MAX,
            is_settled: false,
        }
    }

    fn push(&mut self, item: Item) {
        if self.pending.len() == MAX_PENDING {
            self.pending.pop_front();
        }
        self.pending.push_back(item);
    }

    fn link(&self, peer: &Peer) -> Option<&Link> {
        let place = self.neighbours.binary_search_by_key(peer, |e| e.0).ok()?;
        Some(&self.neighbours[place].1)
    }

    fn cost(&self, peer: &Peer) -> u16 {
        self.link(peer).map_or(INFINITE, Link::cost)
    }

    fn selected(&self, prefix: &Key) -> Option<&Selection> {
        let place = self.selections.binary_search_by_key(prefix, |e| e.0).ok()?;
        Some(&self.selections[place].1)
    }

    fn is_feasible(&self, prefix: Key, route: &Route) -> bool {
        let source = (prefix, route.router.octets());
        route.metric == INFINITE
            || match self.sources.binary_search_by_key(&source, |e| e.0) {
                Ok(place) => is_better(route.seqno, route.metric, &self.sources[place].1),
                Err(_) => true,
            }
    }

    /// The candidate of least metric, then the one selected before, then that of the least
    /// neighbour.
    fn choose(&self, prefix: Key, before: Option<Peer>) -> Option<Selection> {
        let first = self.routes.partition_point(|e| e.0 .0 < prefix);
        let mut best: Option<((u16, bool, Peer), Selection)> = None;
        for ((of, peer), route) in &self.routes[first..] {
            if *of != prefix {
                break;
            }
            let metric = add(route.metric, self.cost(peer));
            if metric == INFINITE || !self.is_feasible(prefix, route) {
                continue;
            }
            let rank = (metric, before != Some(*peer), *peer);
            if best.map_or(true, |b| rank < b.0) {
                let (peer, route) = (*peer, *route);
                best = Some((rank, Selection { peer, route }));
            }
        }
        best.map(|b| b.1)
    }

    fn reselect(&mut self, prefix: Prefix) {
        let place = self.selections.binary_search_by_key(&key(prefix), |e| e.0);
        let old = place.ok().map(|place| self.selections[place].1);
        let new = self.choose(key(prefix), old.map(|s| s.peer));
        match (place, new) {
            (Ok(place), Some(new)) => self.selections[place].1 = new,
            (Ok(place), None) => drop(self.selections.remove(place)),
            (Err(place), Some(new)) => self.selections.insert(place, (key(prefix), new)),
            (Err(_), None) => {}
        }
        if old.map(|s| s.route.router) != new.map(|s| s.route.router) {
            for iface in 0..self.interfaces.len() as u8 {
                self.push(Item::Update(iface, None, prefix));
            }
        }
    }

    fn reselect_all(&mut self) {
        let mut prefixes: Vec<Key> = self.routes.iter().map(|e| e.0 .0).collect();
        prefixes.extend(self.selections.iter().map(|e| e.0));
        prefixes.sort();
        prefixes.dedup();
        for Key(addr, length) in prefixes {
            self.reselect(Prefix { addr, length });
        }
        self.is_settled = true;
    }

    /// Takes a datagram, and returns how many TLVs it has.
    pub fn receive(&mut self, now: u64, iface: u8, source: IpAddr, octets: &[u8]) -> usize {
        if usize::from(iface) >= self.interfaces.len() || !is_from_link(iface, source) {
            return 0;
        }
        let Ok(placed) = plain::decode(octets, source) else {
            return 0;
        };
        let peer = Peer {
            iface,
            addr: source,
        };
        let mut notes = Vec::with_capacity(placed.len());
        for place in &placed {
            if let Content::Message(message) = &place.content {
                self.handle(now, peer, message);
            }
            notes.push(place.offset);
        }
        std::hint::black_box(&notes).len()
    }

    fn handle(&mut self, now: u64, peer: Peer, message: &Message) {
        match *message {
            Message::Hello {
                seqno, interval, ..
            } => self.hello(now, peer, seqno.0, interval),
            _ if self.link(&peer).is_none() => {}
            Message::Ihu {
                to,
                rxcost,
                interval,
            } => {
                let own = IpAddr::V4(Ipv4Addr::new(10, peer.iface, 0, 1));
                if to.map_or(true, |to| to == own) {
                    self.ihu(now, peer, rxcost.0, interval);
                }
            }
            Message::Update {
                prefix,
                router,
                seqno,
                metric,
                interval,
                ..
            } => {
                let deadline = now.saturating_add(u64::from(interval) * 7 / 2);
                let (seqno, metric) = (seqno.0, metric.0);
                let route = Route {
                    router,
                    seqno,
                    metric,
                    interval,
                    deadline,
                };
                self.update(peer, prefix, route);
            }
            Message::DumpRequest => {
                for place in 0..self.selections.len() {
                    let Key(addr, length) = self.selections[place].0;
                    self.push(Item::Update(
                        peer.iface,
                        Some(peer.addr),
                        Prefix { addr, length },
                    ));
                }
            }
            _ => {}
        }
    }

    fn hello(&mut self, now: u64, peer: Peer, seqno: u16, interval: u16) {
        let place = match self.neighbours.binary_search_by_key(&peer, |e| e.0) {
            Ok(place) => place,
            Err(_) if self.neighbours.len() == 64 => return,
            Err(place) => {
                let link = Link {
                    marks: 0,
                    expected: seqno,
                    interval,
                    hello_due: u64::MAX,
                    txcost: INFINITE,
                    txcost_due: u64::MAX,
                };
                self.neighbours.insert(place, (peer, link));
                place
            }
        };
        let link = &mut self.neighbours[place].1;
        let before = link.cost();
        let missed = seqno.wrapping_sub(link.expected);
        link.marks = if missed < 16 {
            (link.marks << missed << 1) | 1
        } else {
            1
        };
        link.expected = seqno.wrapping_add(1);
        link.interval = interval;
        link.hello_due = now.saturating_add(u64::from(interval) * 3 / 2);
        self.links_due = self.links_due.min(link.hello_due);
        if link.cost() != before || !self.is_settled {
            self.reselect_all();
        }
    }

    fn ihu(&mut self, now: u64, peer: Peer, rxcost: u16, interval: u16) {
        let Ok(place) = self.neighbours.binary_search_by_key(&peer, |e| e.0) else {
            return;
        };
        let link = &mut self.neighbours[place].1;
        let before = link.cost();
        link.txcost = rxcost;
        link.txcost_due = now.saturating_add(u64::from(interval) * 7 / 2);
        self.links_due = self.links_due.min(link.txcost_due);
        if link.cost() != before || !self.is_settled {
            self.reselect_all();
        }
    }

    fn update(&mut self, peer: Peer, prefix: Prefix, route: Route) {
        if route.router == self.own {
            return;
        }
        self.routes_due = self.routes_due.min(route.deadline);
        match self
            .routes
            .binary_search_by_key(&(key(prefix), peer), |e| e.0)
        {
            Ok(place) => self.routes[place].1 = route,
            Err(_) if self.routes.len() == 256 => return,
            Err(place) => self.routes.insert(place, ((key(prefix), peer), route)),
        }
        self.reselect(prefix);
    }

    /// Takes all deadlines that are due.
    #[inline(never)]
    pub fn tick(&mut self, now: u64) {
        if now >= self.links_due {
            self.tick_links(now);
        }
        if !self.is_settled {
            self.reselect_all();
        }
        if now >= self.routes_due {
            self.tick_routes(now);
        }
        for iface in 0..self.interfaces.len() {
            let timers = self.interfaces[iface];
            if now >= timers.hello_due || now >= timers.ihu_due || now >= timers.update_due {
                self.fire(now, iface as u8);
            }
        }
        if now >= self.sources_due {
            self.sources.retain(|e| now < e.1.due);
            self.sources_due = self
                .sources
                .iter()
                .map(|e| e.1.due)
                .min()
                .unwrap_or(u64::MAX);
            self.is_settled = false;
        }
    }

    fn tick_links(&mut self, now: u64) {
        for (_, link) in &mut self.neighbours {
            if now >= link.hello_due {
                link.marks <<= 1;
                link.expected = link.expected.wrapping_add(1);
                link.hello_due = now.saturating_add(u64::from(link.interval));
            }
            if now >= link.txcost_due {
                link.txcost = INFINITE;
                link.txcost_due = u64::MAX;
            }
        }
        let gone: Vec<Peer> = self
            .neighbours
            .iter()
            .filter(|e| e.1.marks == 0)
            .map(|e| e.0)
            .collect();
        self.neighbours.retain(|e| e.1.marks != 0);
        self.routes.retain(|e| !gone.contains(&e.0 .1));
        self.links_due = self
            .neighbours
            .iter()
            .map(|e| e.1.hello_due.min(e.1.txcost_due))
            .min()
            .unwrap_or(u64::MAX);
        self.is_settled = false;
    }

    fn tick_routes(&mut self, now: u64) {
        self.routes
            .retain(|e| now < e.1.deadline || e.1.metric != INFINITE);
        for (_, route) in &mut self.routes {
            if now >= route.deadline {
                route.metric = INFINITE;
                route.deadline = now.saturating_add(u64::from(route.interval) * 7 / 2);
            }
        }
        self.routes_due = self
            .routes
            .iter()
            .map(|e| e.1.deadline)
            .min()
            .unwrap_or(u64::MAX);
        self.reselect_all();
    }

    fn fire(&mut self, now: u64, iface: u8) {
        let hello = u64::from(HELLO);
        let timers = self.interfaces[usize::from(iface)];
        if now >= timers.hello_due {
            self.interfaces[usize::from(iface)].hello_due = now + hello;
            self.push(Item::Hello(iface));
        }
        if now >= timers.ihu_due {
            self.interfaces[usize::from(iface)].ihu_due = now + 3 * hello;
            for place in 0..self.neighbours.len() {
                let peer = self.neighbours[place].0;
                if peer.iface == iface {
                    self.push(Item::Ihu(peer));
                }
            }
        }
        if now >= timers.update_due {
            self.interfaces[usize::from(iface)].update_due = now + 4 * hello;
            for place in 0..self.selections.len() {
                let Key(addr, length) = self.selections[place].0;
                self.push(Item::Update(iface, None, Prefix { addr, length }));
            }
        }
    }

    /// What an item means now, and where that goes.
    fn outgoing(&self, item: Item) -> Option<(u8, Option<IpAddr>, Message)> {
        match item {
            Item::Hello(iface) => {
                let seqno = Seqno(self.interfaces[usize::from(iface)].hello_seqno);
                let unicast = false;
                Some((
                    iface,
                    None,
                    Message::Hello {
                        unicast,
                        seqno,
                        interval: HELLO,
                    },
                ))
            }
            Item::Ihu(peer) => {
                let link = self.link(&peer)?;
                let is_up = (link.marks & 7).count_ones() >= 2;
                let rxcost = if is_up { Metric(96) } else { Metric::INFINITE };
                let interval = 3 * HELLO;
                Some((
                    peer.iface,
                    None,
                    Message::Ihu {
                        to: Some(peer.addr),
                        rxcost,
                        interval,
                    },
                ))
            }
            Item::Update(iface, to, prefix) => {
                let interval = 4 * HELLO;
                let Some(Selection { peer, route }) = self.selected(&key(prefix)) else {
                    return Some((iface, to, Message::Retraction { prefix, interval }));
                };
                let source = (key(prefix), route.router.octets());
                if self.sources.len() == 512
                    && self.sources.binary_search_by_key(&source, |e| e.0).is_err()
                {
                    return None;
                }
                let message = Message::Update {
                    prefix,
                    router: route.router,
                    next_hop: IpAddr::V4(Ipv4Addr::new(10, iface, 0, 1)),
                    seqno: Seqno(route.seqno),
                    metric: Metric(add(route.metric, self.cost(peer))),
                    interval,
                };
                Some((iface, to, message))
            }
        }
    }

    fn sent(&mut self, now: u64, iface: u8, message: &Message) {
        match *message {
            Message::Hello { .. } => {
                let interface = &mut self.interfaces[usize::from(iface)];
                interface.hello_seqno = interface.hello_seqno.wrapping_add(1);
            }
            Message::Update {
                prefix,
                router,
                seqno,
                metric,
                ..
            } => {
                let due = now.saturating_add(18_000);
                self.sources_due = self.sources_due.min(due);
                let source = (key(prefix), router.octets());
                let (seqno, metric) = (seqno.0, metric.0);
                match self.sources.binary_search_by_key(&source, |e| e.0) {
                    Ok(place) => {
                        let old = &mut self.sources[place].1;
                        if is_better(seqno, metric, old) {
                            (old.seqno, old.metric) = (seqno, metric);
                            self.is_settled = false;
                        }
                        old.due = due;
                    }
                    Err(place) => {
                        self.sources
                            .insert(place, (source, Distance { seqno, metric, due }));
                        self.is_settled = false;
                    }
                }
            }
            _ => {}
        }
    }

    /// Takes the next datagram, and returns its octets.
    pub fn next_datagram(&mut self, now: u64, out: &mut Vec<u8>) -> bool {
        out.clear();
        let mut target = None;
        let mut builder = None;
        while let Some(&item) = self.pending.front() {
            if let Some((iface, to, message)) = self.outgoing(item) {
                let source = IpAddr::V4(Ipv4Addr::new(10, iface, 0, 1));
                if *target.get_or_insert((iface, to)) != (iface, to)
                    || !builder
                        .get_or_insert_with(|| Builder::new(source))
                        .add(&message)
                {
                    break;
                }
                self.sent(now, iface, &message);
            }
            self.pending.pop_front();
        }
        match builder {
            Some(builder) => {
                out.extend_from_slice(builder.finish().as_slice());
                true
            }
            None => false,
        }
    }
}

fn is_from_link(iface: u8, source: IpAddr) -> bool {
    match source {
        IpAddr::V4(addr) => addr.octets()[..2] == [10, iface] && addr.octets()[2..] != [0, 1],
        IpAddr::V6(_) => false,
    }
}

/// Takes the steps of `setup` once, and those of `turn` this many times, as the proved speaker's
/// call does.
pub fn run(setup: &[u8], turn: &[u8], turns: usize) -> u64 {
    let mut speaker = Speaker::new();
    let mut sum = take_steps(&mut speaker, setup);
    for _ in 0..turns {
        sum = sum.wrapping_add(take_steps(&mut speaker, turn));
    }
    sum
}

#[inline(never)]
fn take_steps(speaker: &mut Speaker, steps: &[u8]) -> u64 {
    let mut left = steps;
    let mut sum = 0u64;
    while left.len() >= 12 {
        let length = usize::from(u16::from_be_bytes([left[10], left[11]]));
        let now = u64::from(u32::from_be_bytes([left[6], left[7], left[8], left[9]]));
        let octets = &left[12..12 + length];
        sum = sum.wrapping_add(match left[0] {
            0 => {
                let source = IpAddr::from([left[2], left[3], left[4], left[5]]);
                speaker.receive(now, left[1], source, octets) as u64
            }
            1 => {
                speaker.tick(now);
                0
            }
            _ => drain(speaker, now),
        });
        left = &left[12 + length..];
    }
    sum
}

fn drain(speaker: &mut Speaker, now: u64) -> u64 {
    let mut datagram = Vec::with_capacity(1024);
    let mut sum = 0u64;
    while speaker.next_datagram(now, &mut datagram) {
        let last = datagram.last().map_or(0, |last| u64::from(*last));
        sum = sum.wrapping_add(1_000 * datagram.len() as u64 + last);
    }
    sum
}
