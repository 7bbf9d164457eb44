"""Registers and words by the names that the Rust has for them. Its file of constants could not be had, so the registers are those of model/card.py,
and the words are written down once more: those of descriptors from document 01, the others from the driver header.
"""
from model import card
from model.limits import QUEUES

REGISTERS = """CTRL CTRL_EXT EEC EICR EIMS EIMC EIAC GPIE FCTRL RDRXCTL RXCTRL DTXMXSZRQ DMATXCTL RTTDCS HLREG0 AUTOC LINKS
GPRC GPTC GORCL GORCH GOTCL GOTCH""".split()
WORDS = {
    "CTRL_RST_MASK": 0x4000008, "CTRL_EXT_NS_DIS": 0x10000, "EEC_ARD": 0x200, "IRQ_CLEAR_MASK": 0xFFFFFFFF,
    "RDRXCTL_DMAIDONE": 0x8, "RDRXCTL_CRCSTRIP": 0x2, "RDRXCTL_RSCFRSTSIZE": 0x3E0000, "RDRXCTL_RSCACKC": 0x2000000, "RDRXCTL_FCOE_WRFIX": 0x4000000,
    "RXCTRL_RXEN": 0x1, "RXPBSIZE_128KB": 0x20000, "TXPBSIZE_40KB": 0xA000,
    "HLREG0_TXCRCEN": 0x1, "HLREG0_RXCRCSTRP": 0x2, "HLREG0_TXPADEN": 0x400, "FCTRL_MPE": 0x100, "FCTRL_UPE": 0x200, "FCTRL_BAM": 0x400,
    "SRRCTL_DESCTYPE_MASK": 0xE000000, "SRRCTL_DESCTYPE_ADV_ONEBUF": 0x2000000, "SRRCTL_DROP_EN": 0x10000000,
    "RXDCTL_ENABLE": 0x2000000, "TXDCTL_ENABLE": 0x2000000, "RTTDCS_ARBDIS": 0x40,
    "DMATXCTL_TE": 0x1, "DMATXCTL_VT_DEFAULT": 0x8100, "DMATXCTL_VT_SHIFT": 16,
    "AUTOC_LMS_MASK": 0xE000, "AUTOC_LMS_10G_SERIAL": 0x6000, "AUTOC_AN_RESTART": 0x1000, "AUTOC_10G_PMA_PMD_MASK": 0x180, "AUTOC_10G_XAUI": 0,
    "LINKS_UP": 0x40000000, "LINKS_SPEED_82599": 0x30000000,
    "LINKS_SPEED_10G_82599": 0x30000000, "LINKS_SPEED_1G_82599": 0x20000000, "LINKS_SPEED_100_82599": 0x10000000,
    "GPIE_MSIX_MODE": 0x10, "GPIE_EIAME": 0x40000000, "GPIE_PBA_SUPPORT": 0x80000000, "EIMS_RTX_QUEUE": 0xFFFF, "IVAR_ALLOC_VAL": 0x80,
    "RXDADV_STAT_DD": 0x1, "RXDADV_STAT_EOP": 0x2, "ADVTXD_STAT_DD": 0x1, "ADVTXD_PAYLEN_SHIFT": 14, "ADVTXD_DTYP_DATA": 0x300000,
    "ADVTXD_DCMD_EOP": 0x1000000, "ADVTXD_DCMD_IFCS": 0x2000000, "ADVTXD_DCMD_RS": 0x8000000, "ADVTXD_DCMD_DEXT": 0x20000000,
}


def ranges():
    """The registers of which there are several, by their names."""
    queues = range(QUEUES)
    found = {"RAL": [card.RAL], "RAH": [card.RAH], "RXPBSIZE": card.RXPBSIZE, "TXPBSIZE": card.TXPBSIZE}
    for name, register in (("SRRCTL", card.srrctl), ("DCA_RXCTRL", card.dca_rxctrl), ("EITR", card.eitr), ("IVAR", card.ivar)):
        found[name] = list(map(register, queues))
    for names, ring in (("RDBAL RDBAH RDLEN RDH RDT RXDCTL", card.receive_ring), ("TDBAL TDBAH TDLEN TDH TDT TXDCTL", card.send_ring)):
        found |= zip(names.split(), map(list, zip(*map(ring, queues))))
    return found


def constants():
    """The table as Rust: a constant for each register and word, a function for each range."""
    for name, value in [*WORDS.items(), *((name, getattr(card, name)) for name in REGISTERS)]:
        yield f"const IXGBE_{name}: u32 = {value};"
    for name, places in ranges().items():
        yield f"fn IXGBE_{name}(i: u32) -> u32 {{ {places}[i as usize] }}"
