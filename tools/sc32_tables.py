#!/usr/bin/env python3
"""Writes the four tables of crates/sc32, as constants and as the lists that the proofs test.

Run it from anywhere; it writes src/tables.rt and proofs/Values.antt of that crate.
"""

from pathlib import Path

POLYNOMIAL = 0xF4ACFB13
CRATE = Path(__file__).resolve().parent.parent / "crates" / "sc32"
STEPS = (8, 16, 24, 32)


def bit_steps(count, register):
    for _ in range(count):
        top = register >> 31
        register = (register << 1) & 0xFFFFFFFF
        if top:
            register ^= POLYNOMIAL
    return register


def entries(steps):
    """What so many steps make of each byte in the top eight bits, as literals."""
    values = (bit_steps(steps, byte << 24) for byte in range(256))
    return [f"0x{value >> 16:04X}_{value & 0xFFFF:04X}" for value in values]


def constant(steps):
    lines = [f"    {entry},\n" for entry in entries(steps)]
    return f"\npub(crate) const STEPS_{steps}: [u32; 256] = [\n{''.join(lines)}];\n"


def literals(steps):
    all_of = entries(steps)
    rows = [" ∷ ".join(all_of[at : at + 8]) for at in range(0, 256, 8)]
    body = " ∷\n    ".join(rows)
    return f"\nunfoldable pub steps{steps} : List ℕ\nsteps{steps} =\n    {body} ∷ []\n"


def main():
    (CRATE / "src" / "tables.rt").write_text(
        "// What 8, 16, 24 and 32 steps make of each byte in the top eight bits. Written by tools/sc32_tables.py.\n"
        + "".join(map(constant, STEPS))
    )
    (CRATE / "proofs" / "Values.antt").write_text(
        "-- The entries of the tables of src/tables.rt. Written by tools/sc32_tables.py.\n"
        "-- Assumes nothing.\n"
        "use Rattle.std.proofs.Common.{ℕ, List, [], ◌∷◌}\n" + "".join(map(literals, STEPS))
    )


if __name__ == "__main__":
    main()
