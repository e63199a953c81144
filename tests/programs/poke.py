#!/usr/bin/env python3
"""poke.py IMAGE TRACK SECTOR FIRST BYTE ..: changes bytes of a sector of a D64, from FIRST on."""
import sys

from generated_disks import place

name, track, sector, first, *values = sys.argv[1], *map(int, sys.argv[2:])
with open(name, "r+b") as image:
    image.seek(place(track, sector) + first)
    image.write(bytes(values))
