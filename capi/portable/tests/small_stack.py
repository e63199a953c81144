#!/usr/bin/env python3
"""small_stack MOST [CALL=MOST..] < what capi/tests/stack.c prints: fails where a call takes more than MOST bytes of the caller's stack, or a named one
more than its own."""
import re, sys

most, own = int(sys.argv[1]), dict(it.split("=") for it in sys.argv[2:])
used = {name: int(size) for name, size in re.findall(r"^  (\S.*?) +(\d+), at most +\d+$", sys.stdin.read(), re.M)}
above = {name: size for name, size in used.items() if size > int(own.get(name, most))}
name = max(used, key=used.get) if used else sys.exit("small_stack: no call was measured")
print(f"stack: {len(used)} calls, at most {used[name]} bytes ({name}); above {' '.join(sys.argv[1:])}: {above or 'none'}")
sys.exit(bool(above))
