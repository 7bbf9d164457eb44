// What stands around the Rust's pool and ring functions in the comparison of rust/rings.py: it reads the records of docs/REPLAY.md from standard input and
// answers each from the Rust's state, as `replay` does. Its constants and the functions themselves are put beside it. The card's registers, the rings and
// packet memory are ordinary memory. Where the Rust panics or gives nothing, the answer says so.
use std::collections::{BTreeMap, HashMap, VecDeque};
use std::io::{BufWriter, Read, Write};
use std::ops::{Deref, DerefMut};
use std::time::{Duration, Instant};
use std::{cell::RefCell, error::Error, mem, panic, rc::Rc, slice};

const CARD: usize = 1 << 44; // no such memory: every access to the registers is taken here
const MAP: usize = 0x20000;
const RING: usize = 8192;
const ADDRESSES: usize = 5000; // more than the most entries

// ---- the card, the rings and packet memory

// What the registers hold, what was written to them, and the rings as they were at the last such write; the memory of the pool and its addresses.
#[derive(Default)]
struct Memory {
    words: HashMap<usize, u32>,
    writes: Vec<(usize, u32)>,
    rings: [Vec<u64>; 5],
    rings_then: Vec<Vec<u8>>,
    addresses: Vec<u64>,
    entries: usize,
    pool: Vec<u64>,
    pool_bytes: usize,
    container: i32,
}
thread_local! { static MEMORY: RefCell<Memory> = RefCell::default(); }

fn memory<T>(with: impl FnOnce(&mut Memory) -> T) -> T {
    MEMORY.with(|it| with(&mut it.borrow_mut()))
}

fn bytes_of(words: &mut Vec<u64>, bytes: usize) -> &mut [u8] {
    unsafe { slice::from_raw_parts_mut(words.as_mut_ptr() as *mut u8, bytes) }
}

impl Memory {
    // the bytes of each ring that a call is lent
    fn lent(&mut self) -> Vec<Vec<u8>> {
        self.rings.iter_mut().map(|ring| bytes_of(ring, RING).to_vec()).collect()
    }
    // twice that, so that a slot after a ring is there too
    fn ring(&mut self, ring: usize) -> &mut [u8] {
        bytes_of(&mut self.rings[ring], 2 * RING)
    }
    fn packets(&mut self) -> &mut [u8] {
        bytes_of(&mut self.pool, self.pool_bytes)
    }
}

mod ptr {
    fn register<T>(at: *const T) -> Option<usize> {
        (at as usize).checked_sub(super::CARD).filter(|it| *it < super::MAP)
    }
    pub unsafe fn write_volatile<T: Copy>(at: *mut T, value: T) {
        let Some(place) = register(at) else { return std::ptr::write_volatile(at, value) };
        let word = std::mem::transmute_copy(&value);
        super::memory(|it| {
            it.words.insert(place, word);
            it.writes.push((place, word));
            it.rings_then = it.lent();
        })
    }
    pub unsafe fn read_volatile<T: Copy>(at: *const T) -> T {
        let Some(place) = register(at) else { return std::ptr::read_volatile(at) };
        std::mem::transmute_copy(&super::memory(|it| it.words.get(&place).copied().unwrap_or(0)))
    }
}

struct Dma<T> {
    virt: *mut T,
    phys: usize,
}
impl<Byte> Dma<Byte> {
    fn allocate(bytes: usize, _: bool) -> Result<Self, Box<dyn Error>> {
        memory(|it| {
            it.pool = vec![0xA5A5A5A5A5A5A5A5; bytes / 8 + 1];
            it.pool_bytes = bytes;
            Ok(Dma { virt: it.pool.as_mut_ptr() as *mut Byte, phys: it.addresses[0] as usize })
        })
    }
}

// Addresses one after the other are had as through VFIO, others one by one.
fn get_vfio_container() -> i32 {
    memory(|it| it.container)
}
fn virt_to_phys(at: usize) -> Result<usize, Box<dyn Error>> {
    memory(|it| Ok(it.addresses[(at - it.pool.as_ptr() as usize) / (it.pool_bytes / it.entries)] as usize))
}

// ---- descriptors, by document 01

#[derive(Clone, Copy)]
#[repr(C)]
struct Offered {
    pkt_addr: u64,
    hdr_addr: u64,
}
#[derive(Clone, Copy)]
#[repr(C)]
struct Upper {
    status_error: u32,
    length: u16,
    tag: u16,
}
#[derive(Clone, Copy)]
#[repr(C)]
struct Received {
    lower: u64,
    upper: Upper,
}
#[repr(C)]
union ixgbe_adv_rx_desc {
    read: Offered,
    wb: Received,
}
#[derive(Clone, Copy)]
#[repr(C)]
struct ToSend {
    buffer_addr: u64,
    cmd_type_len: u32,
    olinfo_status: u32,
}
#[derive(Clone, Copy)]
#[repr(C)]
struct Sent {
    unused: u64,
    also: u32,
    status: u32,
}
#[repr(C)]
union ixgbe_adv_tx_desc {
    read: ToSend,
    wb: Sent,
}

// ---- the device, with interrupts off

macro_rules! debug { ($($part:tt)*) => {{ let _ = format!($($part)*); }} }

mod thread {
    pub fn sleep(_: std::time::Duration) {}
}

struct QueueInterrupts {
    interrupt_enabled: bool,
    rx_pkts: u64,
    instr_counter: u64,
    interval: u64,
    last_time_checked: Instant,
}
impl QueueInterrupts {
    fn vfio_epoll_wait(&self, _: i32) -> Result<usize, Box<dyn Error>> {
        unreachable!()
    }
    fn check_interrupt(&mut self, _: u64, _: usize, _: usize) {
        unreachable!()
    }
}
struct Interrupts {
    interrupts_enabled: bool,
    timeout_ms: i16,
    queues: Vec<QueueInterrupts>,
}
struct IxgbeDevice {
    addr: *mut u8,
    len: usize,
    rx_queues: Vec<IxgbeRxQueue>,
    tx_queues: Vec<IxgbeTxQueue>,
    interrupts: Interrupts,
}
trait WithoutInterrupts {
    fn enable_interrupt(&self, _: u16) -> Result<(), Box<dyn Error>> {
        unreachable!()
    }
    fn disable_interrupt(&self, _: u16) {
        unreachable!()
    }
}
impl WithoutInterrupts for IxgbeDevice {}

// ---- records

// What is left of a record's body.
struct Body<'a>(&'a [u8]);
impl Body<'_> {
    fn number(&mut self, bytes: usize) -> u64 {
        let (one, rest) = self.0.split_at(bytes);
        self.0 = rest;
        one.iter().rev().fold(0, |sum, byte| sum << 8 | *byte as u64)
    }
    fn u8(&mut self) -> u8 {
        self.number(1) as u8
    }
    fn u16(&mut self) -> usize {
        self.number(2) as usize
    }
    fn u32(&mut self) -> usize {
        self.number(4) as usize
    }
    fn u64(&mut self) -> usize {
        self.number(8) as usize
    }
    fn handle(&mut self) -> [usize; 4] {
        [self.u32(), self.u16(), self.u16(), self.u16()]
    }
    // the bytes of a ring and the places of the addresses that are lent: the Rust has its own
    fn skip_lent(&mut self) {
        for _ in ["ring", "bytes", "addresses"] {
            self.u16();
        }
    }
    fn places(&mut self, bytes: usize) -> Vec<u64> {
        (0..self.0.len() / bytes).map(|_| self.number(bytes)).collect()
    }
}

fn text<T: ToString>(numbers: impl IntoIterator<Item = T>) -> String {
    numbers.into_iter().map(|x| x.to_string()).collect::<Vec<_>>().join(" ")
}

fn tried<T>(call: impl FnOnce() -> T) -> Option<T> {
    panic::catch_unwind(panic::AssertUnwindSafe(call)).ok()
}

fn digest<'a>(bytes: impl IntoIterator<Item = &'a u8>) -> u32 {
    bytes.into_iter().fold(0, |sum: u32, x| sum.wrapping_mul(31).wrapping_add(*x as u32 + 1))
}

// ---- the host: a pool with its name, the packets that are out, the device, and the lists of the records

struct Host {
    name: u32,
    pool: Rc<Mempool>,
    live: BTreeMap<usize, Packet>,
    device: IxgbeDevice,
    lists: [Vec<u64>; 4],
}

impl Host {
    fn fresh(body: &mut Body) -> Host {
        let (name, entries, size, receives, sends) = (body.u32() as u32, body.u64(), body.u64(), body.u64(), body.u64());
        memory(|it| {
            let step = it.addresses[1].wrapping_sub(it.addresses[0]);
            let even = step == if size == 0 { 2048 } else { size as u64 };
            let one_by_one = (0..entries).all(|k| it.addresses[k] == it.addresses[0].wrapping_add(step.wrapping_mul(k as u64)));
            it.container = if even && one_by_one { 3 } else { -1 };
            it.entries = entries;
        });
        let pool = Mempool::allocate(entries, size).unwrap();
        let device = IxgbeDevice {
            addr: CARD as *mut u8,
            len: MAP,
            rx_queues: (0..receives).map(|queue| Host::receive_queue(queue, &pool)).collect(),
            tx_queues: (0..sends).map(Host::send_queue).collect(),
            interrupts: Interrupts { interrupts_enabled: false, timeout_ms: 0, queues: Vec::new() },
        };
        Host { name, pool, live: BTreeMap::new(), device, lists: Default::default() }
    }

    fn receive_queue(queue: usize, pool: &Rc<Mempool>) -> IxgbeRxQueue {
        IxgbeRxQueue {
            bufs_in_use: Vec::new(),
            rx_index: 0,
            pool: pool.clone(),
            num_descriptors: NUM_RX_QUEUE_ENTRIES,
            descriptors: memory(|it| it.rings[queue].as_mut_ptr()) as *mut _,
        }
    }

    fn send_queue(queue: usize) -> IxgbeTxQueue {
        IxgbeTxQueue {
            bufs_in_use: VecDeque::new(),
            tx_index: 0,
            clean_index: 0,
            pool: None,
            num_descriptors: NUM_TX_QUEUE_ENTRIES,
            descriptors: memory(|it| it.rings[1 + queue].as_mut_ptr()) as *mut _,
        }
    }

    // ---- what answers have in common

    // offset by memory, and by address too if that is another
    fn handle(&self, packet: &Packet) -> String {
        let by_memory = (packet.addr_virt as usize).wrapping_sub(self.pool.get_virt_addr(packet.pool_entry) as usize);
        let by_address = packet.get_phys_addr().wrapping_sub(self.pool.get_phys_addr(packet.pool_entry));
        let more = if by_memory == by_address { String::new() } else { format!(" by address {by_address}") };
        format!("{} {} {} {}{more}", self.name, packet.pool_entry, by_memory, packet.len)
    }

    // a number of each send queue; what no queue has is 0
    fn of_queues(&self, number: fn(&IxgbeTxQueue) -> usize) -> Vec<usize> {
        (0..4).map(|queue| self.device.tx_queues.get(queue).map_or(0, number)).collect()
    }
    fn pending(&self) -> Vec<usize> {
        self.of_queues(|it| it.bufs_in_use.len())
    }
    fn free(&self) -> usize {
        self.pool.free_stack.borrow().len()
    }
    fn in_receive_ring(&self) -> usize {
        self.device.rx_queues.iter().map(|it| it.bufs_in_use.len()).sum()
    }
    fn counts(&self) -> String {
        text([self.free(), self.in_receive_ring(), self.pending().iter().sum(), self.live.len()])
    }

    fn keep(&mut self, packet: Packet) -> String {
        let handle = self.handle(&packet);
        self.live.insert(packet.pool_entry, packet);
        handle
    }

    // packets go into the lists from their start
    fn keep_listed(&mut self, packets: VecDeque<Packet>) {
        for (place, packet) in packets.into_iter().enumerate() {
            let handle = self.keep(packet);
            for (list, number) in self.lists.iter_mut().zip(handle.split(' ')) {
                list.resize(list.len().max(place + 1), 0);
                list[place] = number.parse().unwrap();
            }
        }
    }

    // the live packet of a handle, out of the host's hands
    fn packet(&mut self, handle: [usize; 4]) -> Packet {
        let packet = self.live.remove(&handle[1]).expect("no such packet");
        assert_eq!(text(handle), self.handle(&packet));
        packet
    }

    // the tail that was written, if nothing else was done to the registers and the rings were then as they are now
    fn tail(&self, register: u32) -> String {
        memory(|it| {
            let same = it.lent() == it.rings_then;
            match mem::take(&mut it.writes)[..] {
                [] => "-".to_string(),
                [(place, word)] if place == register as usize && same => word.to_string(),
                [_] if !same => "too early".to_string(),
                ref others => format!("{others:x?}"),
            }
        })
    }

    // ---- packets

    fn take(&mut self, body: &mut Body) -> String {
        let packet = alloc_pkt(&self.pool, body.u64());
        let handle = packet.map_or("none".to_string(), |it| format!("0 {}", self.keep(it)));
        format!("{handle} {}", self.counts())
    }

    fn batch(&mut self, body: &mut Body) -> String {
        let mut packets = VecDeque::new();
        let count = alloc_pkt_batch(&self.pool, &mut packets, body.u64(), body.u64());
        self.keep_listed(packets);
        format!("0 {count} {}", self.counts())
    }

    fn release(&mut self, body: &mut Body) -> String {
        drop(self.packet(body.handle()));
        format!("0 {}", self.counts())
    }

    fn truncate(&mut self, body: &mut Body) -> String {
        let mut packet = self.packet(body.handle());
        packet.truncate(body.u64());
        format!("0 {}", self.keep(packet))
    }

    fn clone_packet(&mut self, body: &mut Body) -> String {
        let packet = self.packet(body.handle());
        let other = tried(|| packet.clone());
        self.keep(packet);
        let handle = other.map_or("panic".to_string(), |it| format!("0 {}", self.keep(it)));
        format!("{handle} {}", self.counts())
    }

    fn view(&mut self, body: &mut Body) -> String {
        let packet = self.packet(body.handle());
        let answer = format!("0 {} {}", (*packet).len(), digest(&*packet));
        self.keep(packet);
        answer
    }

    fn headroom(&mut self, body: &mut Body) -> String {
        let mut packet = self.packet(body.handle());
        let (asked, _, fill, at) = (body.u64(), body.u32(), body.u8(), packet.get_virt_addr() as usize);
        let received = at == self.pool.get_virt_addr(packet.pool_entry) as usize;
        let answer = tried(|| match packet.headroom_mut(asked) {
            part if part.as_ptr() as usize + part.len() != at || part.len() != asked => "elsewhere".to_string(),
            _ if received && asked > 0 => "before".to_string(),
            part => {
                part.fill(fill);
                format!("0 {}", part.len())
            }
        });
        self.keep(packet);
        answer.unwrap_or("panic".to_string())
    }

    // ---- rings

    fn start(&mut self, body: &mut Body) -> String {
        let queue = body.u64() as u16;
        memory(|it| it.writes.clear());
        let end = tried(|| self.device.start_rx_queue(queue)).map_or("panic", |it| if it.is_ok() { "0" } else { "error" });
        // head and control are start-up's
        memory(|it| it.writes.retain(|(place, _)| ![IXGBE_RDH(0), IXGBE_RXDCTL(0)].contains(&(*place as u32))));
        format!("{end} {} {}", self.tail(IXGBE_RDT(0)), self.counts())
    }

    fn receive(&mut self, body: &mut Body) -> String {
        let (queue, mut packets) = (body.u64() as u16, VecDeque::new());
        body.skip_lent();
        let n = body.u64();
        memory(|it| it.writes.clear());
        let end = match tried(|| self.device.rx_batch(queue, &mut packets, n)) {
            Some(count) if count != packets.len() => format!("{count} of"),
            Some(_) => "done".to_string(),
            None => "panic".to_string(),
        };
        let count = packets.len();
        self.keep_listed(packets);
        format!("{end} {count} {} {}", self.tail(IXGBE_RDT(0)), self.counts())
    }

    fn send(&mut self, body: &mut Body) -> String {
        let queue = body.u64();
        body.skip_lent();
        let n = body.u16();
        let mut packets: VecDeque<Packet> = (0..n).map(|place| self.packet([0, 1, 2, 3].map(|list| self.lists[list][place] as usize))).collect();
        memory(|it| it.writes.clear());
        let count = tried(|| self.device.tx_batch(queue as u16, &mut packets));
        // what is left is the rest of the list, in its order
        let rest: Vec<u64> = packets.iter().map(|it| it.pool_entry as u64).collect();
        let right = count.map_or(rest.len() == n, |count| rest[..] == self.lists[1][count.min(n)..n]);
        for packet in packets {
            self.keep(packet);
        }
        let end = if !right { "another rest" } else if count.is_some() { "0" } else { "panic" };
        let tail = self.tail(IXGBE_TDT(queue.min(63) as u32));
        format!("{end} {} {tail} {}", count.unwrap_or(0), self.counts())
    }

    // ---- what is set and shown

    fn set_list(&mut self, body: &mut Body) -> String {
        let (list, at, values) = (body.u16(), body.u16(), body.places(4));
        let places = &mut self.lists[list];
        places.resize(places.len().max(at + values.len()), 0);
        places[at..at + values.len()].copy_from_slice(&values);
        values.len().to_string()
    }

    fn show_places(&self, body: &mut Body) -> String {
        let (list, at, count) = (body.u16(), body.u16(), body.u16());
        text(&self.lists[list][at..at + count])
    }

    // an array of the account, by its number
    fn array(&self, field: usize) -> Vec<usize> {
        match field {
            8 => self.pool.free_stack.borrow().clone(),
            10 => self.device.rx_queues[0].bufs_in_use.clone(),
            11 => self.sent_ids(),
            12 => self.of_queues(|it| it.clean_index),
            13 => self.of_queues(|it| it.tx_index),
            _ => panic!("no such array"),
        }
    }

    // the ids of the send queues, by their slots
    fn sent_ids(&self) -> Vec<usize> {
        let mut places = vec![0; 2048];
        for (q, queue) in self.device.tx_queues.iter().enumerate() {
            for (k, id) in queue.bufs_in_use.iter().enumerate() {
                places[512 * q + (queue.clean_index + k) % 512] = *id;
            }
        }
        places
    }

    fn show_array(&self, body: &mut Body) -> String {
        let (places, at, count) = (self.array(body.u16()), body.u16(), body.u16());
        text(&places[at..at + count])
    }

    fn answer(&mut self, kind: usize, body: &mut Body) -> (&'static str, String) {
        match kind {
            1 => ("fresh", format!("0 {}", self.counts())),
            2 => ("counts", format!("0 {} {} {} {}", self.free(), self.in_receive_ring(), text(self.pending()), self.live.len())),
            3 => ("take", self.take(body)),
            4 => ("batch", self.batch(body)),
            5 => ("release", self.release(body)),
            6 => ("truncate", self.truncate(body)),
            7 => ("clone", self.clone_packet(body)),
            8 => ("view", self.view(body)),
            9 => ("headroom", self.headroom(body)),
            10 => ("start", self.start(body)),
            11 => ("receive", self.receive(body)),
            12 => ("send", self.send(body)),
            21 => ("list", self.set_list(body)),
            31 => ("places", self.show_places(body)),
            34 => ("array", self.show_array(body)),
            _ => panic!("no such record"),
        }
    }
}

// What records do that need no pool.
fn answer_of_memory(kind: usize, body: &mut Body) -> Option<(&'static str, String)> {
    Some(match kind {
        20 => {
            let (ring, at, bytes) = (body.u16(), body.u16(), body.0);
            memory(|it| it.ring(ring)[at..at + bytes.len()].copy_from_slice(bytes));
            ("ring", bytes.len().to_string())
        }
        22 => {
            let (at, values) = (body.u16(), body.places(8));
            memory(|it| it.addresses[at..at + values.len()].copy_from_slice(&values));
            ("addresses", values.len().to_string())
        }
        23 => {
            let (at, bytes) = (body.u32(), body.0);
            memory(|it| it.packets()[at..at + bytes.len()].copy_from_slice(bytes));
            ("memory", bytes.len().to_string())
        }
        30 => {
            let (ring, slot) = (body.u16(), body.u16());
            ("slot", memory(|it| text(&it.ring(ring)[slot * 16..][..16])))
        }
        32 => {
            let (at, count) = (body.u32(), body.u16());
            ("bytes", memory(|it| text(&it.packets()[at..at + count])))
        }
        _ => return None,
    })
}

fn main() {
    let (mut all, mut host, mut out) = (Vec::new(), None, BufWriter::new(std::io::stdout()));
    std::io::stdin().read_to_end(&mut all).unwrap();
    memory(|it| {
        it.rings = [0; 5].map(|_| vec![0; 2 * RING / 8]);
        it.addresses = vec![0; ADDRESSES];
    });
    let (mut left, mut number) = (Body(&all), 0);
    while !left.0.is_empty() {
        let size = left.u16();
        let (record, rest) = left.0.split_at(size);
        let mut body = Body(record);
        let kind = body.u16();
        left.0 = rest;
        number += 1;
        if kind == 1 {
            drop(host.take());
            host = Some(Host::fresh(&mut body));
        }
        let (word, answer) = answer_of_memory(kind, &mut body).unwrap_or_else(|| host.as_mut().expect("no pool").answer(kind, &mut body));
        writeln!(out, "{}", format!("{number} {word} {answer}").trim_end()).unwrap();
    }
}
