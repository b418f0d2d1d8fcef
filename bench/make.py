"""make.py DAYS FILE: a packed readings file of 8 accounts and DAYS days from day 4,000 on, every quarter present."""
import struct, sys

days, name = int(sys.argv[1]), sys.argv[2]
with open(name, "wb") as out:
    for account in range(8):
        for day in range(4000, 4000 + days):
            out.write(struct.pack(">BH", account, day) + b"\xff" * 12)
            out.write(struct.pack(">96I", *(100000 + (account * 7919 + day * 104729 + quarter * 1299709) % 400000 for quarter in range(96))))
