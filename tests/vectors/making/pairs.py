"""The pairs of scripts that the programs from outside are asked about, by families."""

from typing import Iterator

from . import opcodes, signing, spending
from .pieces import Wish

FAMILIES = (
    opcodes.shuffles, opcodes.depth_codes, opcodes.sizes, opcodes.stacks, opcodes.constants, opcodes.equality, opcodes.arithmetic,
    opcodes.binary, opcodes.comparisons, opcodes.hashes, opcodes.nothing, opcodes.conditions, opcodes.limits, opcodes.sizes_of_all,
    opcodes.unspendable, opcodes.script_hashes, opcodes.other_forms, opcodes.signed_inner,
    signing.plain_signatures, signing.odd_keys, signing.hash_types, signing.signed_places, signing.separators, signing.taken_out,
    signing.taken_out_by_many, signing.strict_shapes, signing.odd_numbers, signing.odd_shapes, signing.multisig,
    signing.multisig_stacks, signing.multisig_counts, signing.twenty_keys, signing.multisig_tried,
    spending.digests, spending.places, spending.fields, spending.locks, spending.lock_values, spending.lock_codes,
    spending.locks_by_relay,
)  # fmt: skip


def wishes() -> Iterator[Wish]:
    for family in FAMILIES:
        yield from family()
