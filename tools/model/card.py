"""The 82599's registers, and what the functions of src/ixgbe.rs of ixy.rs do with them: lists of reads, writes, pauses and waits.

Registers and words are the driver header's (ixgbe_type.h), written down here a second time: `card` has them in Rattle.
"""
from collections import namedtuple

from model.limits import RING_BYTES, SLOTS, U32

EICR, EIMS, EIMC, EIAC, GPIE = 0x800, 0x880, 0x888, 0x810, 0x898
CTRL, CTRL_EXT, EEC, FCTRL, RAL, RAH = 0x0, 0x18, 0x10010, 0x5080, 0x5400, 0x5404
RDRXCTL, RXCTRL, DTXMXSZRQ, DMATXCTL, RTTDCS = 0x2F00, 0x3000, 0x8100, 0x4A80, 0x4900
HLREG0, AUTOC, LINKS = 0x4240, 0x42A0, 0x42A4
GPRC, GPTC, GORCL, GORCH, GOTCL, GOTCH = 0x4074, 0x4080, 0x4088, 0x408C, 0x4090, 0x4094
COUNTERS = (GPRC, GPTC, GORCL, GORCH, GOTCL, GOTCH)
RXPBSIZE, TXPBSIZE = ([first + 4 * i for i in range(8)] for first in (0x3C00, 0xCC00))

RESET = 0x04000000 | 0x8  # CTRL.RST and CTRL.LRST
RSCFRSTSIZE = 0x003E0000  # of RDRXCTL
PROMISCUOUS = 0x100 | 0x200  # FCTRL.MPE and FCTRL.UPE
LINK_UP, LINK_FIELD = 0x40000000, 0x30000000  # of LINKS
ENABLE = 0x02000000  # of RXDCTL and of TXDCTL
MSI, MSIX = 1, 2  # VFIO's numbers of the interrupt kinds


# ---- registers of a queue


def eitr(queue):
    """The throttle rate of a queue's interrupts."""
    return 0x820 + 4 * queue


def ivar(pair):
    """The vectors of a pair of queues."""
    return 0x900 + 4 * pair


def srrctl(queue):
    """How a receive queue's buffers are used; below 16 an alias, which the Rust takes."""
    return 0x2100 + 4 * queue if queue < 16 else 0x1014 + 0x40 * queue


def dca_rxctrl(queue):
    """Below 16 an alias, which the Rust takes."""
    return 0x2200 + 4 * queue if queue < 16 else 0x100C + 0x40 * queue


# RDBAL, RDBAH, RDLEN, RDH, RDT, RXDCTL of a receive queue, and the same of a send queue
RingRegisters = namedtuple("RingRegisters", "low high length head tail control")


def receive_ring(queue):
    """The registers of a receive queue's ring."""
    return RingRegisters(*(0x1000 + 0x40 * queue + at for at in (0x0, 0x4, 0x8, 0x10, 0x18, 0x28)))


def send_ring(queue):
    """The registers of a send queue's ring."""
    return RingRegisters(*(0x6000 + 0x40 * queue + at for at in (0x0, 0x4, 0x8, 0x10, 0x18, 0x28)))


# ---- what words mean


def in_map(map_length, register):
    """Whether a map holds a register; 11 is given where it does not."""
    return map_length >= 4 and register <= map_length - 4


def link_speed(links):
    """The Mbit/s that LINKS says, 0 with no link."""
    return {1: 100, 2: 1000, 3: 10000}.get((links & LINK_FIELD) >> 28, 0) if links & LINK_UP else 0


# ---- the Rust's functions, by its names, as lists of items
#
# An item is a name, a register and words. A read-change-write is one item ("change", with the bits that it clears and those that it sets), and so is a
# wait for bits to be set or to be clear, and the wait for the link.


def clear_interrupts():
    return [("write", EIMC, U32), ("read", EICR)]


def disable_interrupts():
    return [("write", EIMS, 0), *clear_interrupts()]


def disable_interrupt(queue):
    return [("change", EIMS, 1 << queue, 0), ("write", EIMC, 1 << queue), ("read", EICR)]


def set_ivar(direction, queue, vector):
    up = 16 * (queue % 2) + 8 * direction
    return [("change", ivar(queue // 2), 0xFF << up, (vector | 0x80) << up)]


def enable_interrupt(kind, queue, rate):
    """The kind None is no interrupts."""
    mask = [("change", EIMS, 0, 1 << queue)]
    if kind == MSI:
        return [*set_ivar(0, queue, 0), ("write", EIAC, 0), ("write", eitr(queue), rate), *clear_interrupts(), *mask]
    if kind == MSIX:
        mode = [("change", GPIE, 0, 0x10 | 0x80000000 | 0x40000000)]
        return [*mode, *set_ivar(0, queue, queue), ("write", EIAC, 0xFFFF), ("write", eitr(queue), rate), *mask]
    return []


def read_stats():
    return [("read", register) for register in COUNTERS]


def get_mac():
    return [("read", RAL), ("read", RAH)]


def set_mac(address):
    return [("write", RAL, int.from_bytes(address[:4], "little")), ("write", RAH, int.from_bytes(address[4:], "little"))]


def set_promisc(on):
    return [("change", FCTRL, 0, PROMISCUOUS) if on else ("change", FCTRL, PROMISCUOUS, 0)]


def init_link():
    return [("change", AUTOC, 7 << 13, 3 << 13), ("change", AUTOC, 0x180, 0), ("change", AUTOC, 0, 0x1000)]


def place_ring(ring, address):
    return [("write", ring.low, address & U32), ("write", ring.high, address >> 32), ("write", ring.length, RING_BYTES)]


def init_rx(addresses):
    items = [("change", RXCTRL, 1, 0)]
    items += [("write", register, 0x20000 if register == RXPBSIZE[0] else 0) for register in RXPBSIZE]
    items += [("change", HLREG0, 0, 2), ("change", RDRXCTL, 0, 2)]
    items += [("change", RDRXCTL, RSCFRSTSIZE, 0), ("change", RDRXCTL, RSCFRSTSIZE, 0x02000000 | 0x04000000), ("change", FCTRL, 0, 0x400)]
    for queue, address in enumerate(addresses):
        ring = receive_ring(queue)
        items += [("change", srrctl(queue), 7 << 25, 1 << 25), ("change", srrctl(queue), 0, 1 << 28)]
        items += [*place_ring(ring, address), ("write", ring.head, 0), ("write", ring.tail, 0)]
    items += [("change", CTRL_EXT, 0, 0x10000)]
    items += [("change", dca_rxctrl(queue), 1 << 12, 0) for queue in range(len(addresses))]
    return [*items, *set_promisc(True), ("change", RXCTRL, 0, 1)]


def init_tx(addresses):
    items = [("change", HLREG0, 0, 0x1 | 0x400)]
    items += [("write", register, 0xA000 if register == TXPBSIZE[0] else 0) for register in TXPBSIZE]
    items += [("write", DTXMXSZRQ, 0xFFF), ("change", RTTDCS, 0x40, 0)]
    for queue, address in enumerate(addresses):
        ring = send_ring(queue)
        items += [*place_ring(ring, address), ("change", ring.control, 0x7F | 0x7F << 8 | 0x7F << 16, 36 | 8 << 8 | 4 << 16)]
    return [*items, ("write", DMATXCTL, 1 | 0x8100 << 16)]


def start_rx_queue(queue):
    ring = receive_ring(queue)
    return [("change", ring.control, 0, ENABLE), ("set", ring.control, ENABLE), ("write", ring.head, 0), ("write", ring.tail, SLOTS - 1)]


def start_tx_queue(queue):
    ring = send_ring(queue)
    return [("write", ring.head, 0), ("write", ring.tail, 0), ("change", ring.control, 0, ENABLE), ("set", ring.control, ENABLE)]


def reset_and_init(receives, sends, kind, rate, addresses):
    """The start-up sequence. There is a ring address for each queue, the receive queues' first."""
    items = [*disable_interrupts(), ("write", CTRL, RESET), ("clear", CTRL, RESET), ("pause", 10), *disable_interrupts(), *get_mac()]
    items += [("set", EEC, 0x200), ("set", RDRXCTL, 8), *init_link(), *read_stats()]
    items += init_rx(addresses[:receives]) + init_tx(addresses[receives : receives + sends])
    for queue in range(receives):
        items += start_rx_queue(queue)
    for queue in range(sends):
        items += start_tx_queue(queue)
    for queue in range(receives):
        items += enable_interrupt(kind, queue, rate)
    return [*items, ("link", LINKS)]
