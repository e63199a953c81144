"""How many proofs run at a time."""
import os

from kit import gate

# The memory of one proof, in bytes. The largest that was measured took 4.8 GB (drive1541), the next 3.5; four at a time took 15. rt itself reckons with two
# to four times as much, so that proofs wait for memory that is free.
A_PROOF = 4_000_000_000


def lanes():
    """One for each processor, as far as the free memory holds a proof for each; or RT_JOBS, if that is set."""
    chosen = os.environ.get("RT_JOBS", "")
    return int(chosen) if chosen.isdigit() and int(chosen) else max(1, min(gate.processors(), gate.free() // A_PROOF))
