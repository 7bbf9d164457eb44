// What stands around the Rust's start-up functions in the comparison of rust/start_ups.py: a recorder in place of the card. Its constants and the
// functions themselves are put beside it. An access of 32 bits is a register's, one of 64 bits a ring's.
//
// Standard input has a start-up on each line: map length, receive queues, send queues, whether interrupts are asked, their kind, the throttle rate, how
// many ring addresses, these, and then the values that the registers give. The actions are printed as `replay` prints them, and then how it ended.
use std::{cell::RefCell, collections::VecDeque, error::Error, mem, panic, rc::Rc, time::Duration};

const CARD: usize = 1 << 44; // no such memory: every access is taken here

// The start-up that is played: the values and the ring addresses that are left, the sum of the pauses, and one block of memory for every ring.
#[derive(Default)]
struct Play {
    values: VecDeque<u32>,
    addresses: VecDeque<usize>,
    milliseconds: u64,
    block: Vec<u64>,
}
thread_local! { static PLAY: RefCell<Play> = RefCell::default(); }

fn play<T>(with: impl FnOnce(&mut Play) -> T) -> T {
    PLAY.with(|it| with(&mut it.borrow_mut()))
}

struct Over; // what ends a start-up with no value left

// Logging only works out what it would print.
macro_rules! info { ($($part:tt)*) => {{ let _ = format!($($part)*); }} }
macro_rules! debug { ($($part:tt)*) => { info!($($part)*) } }
macro_rules! warn { ($($part:tt)*) => { info!($($part)*) } }

mod ptr {
    pub trait Word {
        fn put(self, at: *mut Self);
    }
    impl Word for u32 {
        fn put(self, at: *mut u32) {
            println!("write {} {}", at as usize - super::CARD, self)
        }
    }
    impl Word for u64 {
        fn put(self, at: *mut u64) {
            unsafe { *at = self }
        }
    }
    pub unsafe fn write_volatile<T: Word>(at: *mut T, word: T) {
        word.put(at)
    }
    pub unsafe fn read_volatile(at: *const u32) -> u32 {
        println!("read {}", at as usize - super::CARD);
        let value = super::play(|it| it.values.pop_front());
        value.unwrap_or_else(|| std::panic::resume_unwind(Box::new(super::Over)))
    }
}

unsafe fn memset(at: *mut u8, count: usize, byte: u8) {
    std::ptr::write_bytes(at, byte, count)
}

mod thread {
    pub fn sleep(time: std::time::Duration) {
        println!("pause {}", time.as_millis());
        super::play(|it| it.milliseconds += time.as_millis() as u64)
    }
}

// A clock that only pauses move.
struct Instant(u64);
impl Instant {
    fn now() -> Instant {
        Instant(play(|it| it.milliseconds))
    }
    fn elapsed(&self) -> Duration {
        Duration::from_millis(play(|it| it.milliseconds) - self.0)
    }
}

// Memory for a ring, at the next of the addresses.
struct Dma<T> {
    virt: *mut T,
    phys: usize,
}
impl<Slot> Dma<Slot> {
    fn allocate(bytes: usize, _: bool) -> Result<Self, Box<dyn Error>> {
        let phys = play(|it| it.addresses.pop_front()).ok_or("no address left")?;
        play(|it| it.block.resize(it.block.len().max(bytes / 8), 0));
        Ok(Dma { virt: play(|it| it.block.as_mut_ptr()) as *mut Slot, phys })
    }
}

// A pool of which every buffer is the one at 0.
struct Mempool;
impl Mempool {
    fn allocate(_: usize, _: usize) -> Result<Rc<Self>, Box<dyn Error>> {
        Ok(Rc::new(Mempool))
    }
    fn alloc_buf(&self) -> Option<usize> {
        Some(0)
    }
    fn get_phys_addr(&self, _: usize) -> usize {
        0
    }
}

#[repr(C)]
struct Words {
    pkt_addr: u64,
    hdr_addr: u64,
}
#[repr(C)]
struct ixgbe_adv_rx_desc {
    read: Words,
}
#[repr(C)]
struct ixgbe_adv_tx_desc {
    read: Words,
}

struct Interrupts {
    interrupts_enabled: bool,
    interrupt_type: u64,
    itr_rate: u32,
}
struct IxgbeDevice {
    addr: *mut u8,
    len: usize,
    num_rx_queues: u16,
    num_tx_queues: u16,
    rx_queues: Vec<IxgbeRxQueue>,
    tx_queues: Vec<IxgbeTxQueue>,
    interrupts: Interrupts,
}

fn start_up(numbers: &[u64]) {
    let (fixed, rest) = numbers.split_at(7);
    let (addresses, values) = rest.split_at(fixed[6] as usize);
    play(|it| {
        it.addresses = addresses.iter().map(|x| *x as usize).collect();
        it.values = values.iter().map(|x| *x as u32).collect();
    });
    let mut device = IxgbeDevice {
        addr: CARD as *mut u8,
        len: fixed[0] as usize,
        num_rx_queues: fixed[1] as u16,
        num_tx_queues: fixed[2] as u16,
        rx_queues: Vec::new(),
        tx_queues: Vec::new(),
        interrupts: Interrupts { interrupts_enabled: fixed[3] != 0, interrupt_type: fixed[4], itr_rate: fixed[5] as u32 },
    };
    match panic::catch_unwind(panic::AssertUnwindSafe(|| device.reset_and_init("").is_ok())) {
        Ok(true) => println!("done"),
        Ok(false) => println!("error"),
        Err(why) if why.is::<Over>() => println!("over"),
        Err(_) => println!("panic"),
    }
}

fn main() {
    panic::set_hook(Box::new(|_| ()));
    for line in std::io::stdin().lines() {
        start_up(&line.unwrap().split(' ').map(|x| x.parse().unwrap()).collect::<Vec<u64>>());
    }
}
