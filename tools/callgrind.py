"""How the tools have valgrind's callgrind count.

Callgrind counts `rep stosb` and `rep movsb` once for each byte, and the C library clears and copies larger blocks by these: to clear 8,192
bytes would count 8,213 instructions. So the C library is told to take vectors instead, as it does for smaller blocks: some 300.
"""
import os

NEVER = 1 << 30
ENVIRONMENT = {**os.environ, "GLIBC_TUNABLES": f"glibc.cpu.x86_rep_stosb_threshold={NEVER}:glibc.cpu.x86_rep_movsb_threshold={NEVER}"}
COUNTED = ["valgrind", "--tool=callgrind"]
# The same, with the names of functions whole.
NAMED = [*COUNTED, "--compress-strings=no", "--compress-pos=no"]
