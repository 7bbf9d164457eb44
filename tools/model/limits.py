"""Document 01's numbers, each named once. Those that the crate `limits` has too have the same names there."""

# ---- an account and its packets
ENTRIES = 4096  # the most buffers of an account
SMALLEST_SIZE, SIZE_DOUBLINGS = 64, 8
SIZES = [SMALLEST_SIZE << doublings for doublings in range(SIZE_DOUBLINGS + 1)]  # what an entry's size may be
USUAL_SIZE = 2048  # what a given size of 0 means
HEADROOM = 32  # the bytes kept free before a taken packet

# ---- queues and rings
RECEIVES, SENDS = 1, 4  # the most receive queues and send queues of an account
SLOTS, SLOT_BYTES = 512, 16
RING_BYTES = SLOTS * SLOT_BYTES
BATCH = 32  # the sent buffers that are given back together

# ---- start-up
QUEUES = 64  # the most queues each way of a start-up sequence
SIGNALLED_QUEUES = 16  # the queues that have a bit in the interrupt masks
TRIES = 10000  # the most reads of a wait
WAIT_PAUSE = 100  # milliseconds between two reads of a wait
LINK_READS = 101  # the most reads of the link wait

# ---- the interrupt window
FEWEST_RATES, MOST_RATES = 2, 64
CLOCK_CALLS = 4096  # the receive calls to one look at the clock

# ---- the largest numbers of a width
U16, U32, U64 = 2**16 - 1, 2**32 - 1, 2**64 - 1
