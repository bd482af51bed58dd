"""Times a message that goes round the tiles of a board: what a hop costs in machines of 4, 16 and 256 tiles, in one run.

    time_mesh.py PROGRAM [ROUNDS]

Runs `PROGRAM run` on a ring of 4 tiles that are all of the machine, on one of 16, and on one of 4 in a machine of 16 boards
of 16 tiles whose other threads end at once. Neighbours pass a number on 96,000 times. Each job is run ROUNDS times (5 where
it is left out), and the least user time counts, less that of the same machine whose threads all end at once. An event's cost
must not grow with the number of parts. The reports are compared with what they must be.
"""
import sys

from timing import user_time

HOPS = 96_000
# Where the ring of each board goes, by the x and y of its tiles: each is a neighbour of the one before it.
RINGS = {
    (2, 2): [(0, 0), (1, 0), (1, 1), (0, 1)],
    (4, 4): [(0, 0), (1, 0), (2, 0), (3, 0), (3, 1), (2, 1), (1, 1), (1, 2), (2, 2), (3, 2), (3, 3), (2, 3), (1, 3), (0, 3), (0, 2), (0, 1)],
}
# The first tile begins with 1 and keeps the last number; each other one passes all on.
BODY = """li s1, 0x50000000
li s2, {rounds}
li s3, 2
li s4, 1
li s5, {first}
li s0, {next}
csrrw x0, SendDest, s0
beqz s5, next
sw s4, 0(s1)
csrrw x0, Send, x0
next: csrrw x0, WaitUntil, s3
csrrs a1, Recv, x0
lw a2, 0(a1)
csrrw x0, Free, a1
addi s2, s2, -1
bnez s2, pass
bnez s5, last
pass: addi a3, a2, 1
csrrw x0, WaitUntil, s4
sw a3, 0(s1)
csrrw x0, Send, x0
bnez s2, next
last: csrrw x0, Kill, a2
"""


def address(tile):
    return tile[0] * 64 + tile[1] * 256


def report_of(last):
    return "".join(f"exit {a} {last[a]}\n" for a in sorted(last)) + "done\n"


def addresses(shape):
    boards_x, boards_y, tiles_x, tiles_y = shape
    return [
        address((x, y)) + 1024 * bx + 4096 * by
        for by in range(boards_y) for bx in range(boards_x) for y in range(tiles_y) for x in range(tiles_x)
    ]


def head(shape):
    return "tinsel 1\nshape {} {} {} {} 1 1\nasm all\ncsrrw x0, Kill, x0\nend\n".format(*shape)


def job_of(shape, ring):
    rounds = HOPS // len(ring)
    lines = [head(shape)]
    for k, tile in enumerate(ring):
        after = ring[(k + 1) % len(ring)]
        lines.append(f"asm {address(tile)}\n" + BODY.format(rounds=rounds, first=int(k == 0), next=address(after)) + "end\n")
    last = dict.fromkeys(addresses(shape), 0)
    last.update({address(tile): HOPS - len(ring) + (k or len(ring)) for k, tile in enumerate(ring)})
    return "".join(lines), report_of(last)


def seconds(program, rounds, shape, ring):
    nothing = (head(shape), report_of(dict.fromkeys(addresses(shape), 0)))
    job = job_of(shape, ring)
    return min(user_time(program, *job) for _ in range(rounds)) - min(user_time(program, *nothing) for _ in range(rounds))


def main():
    program = sys.argv[1]
    rounds = int(sys.argv[2]) if len(sys.argv) > 2 else 5
    four, sixteen = RINGS[(2, 2)], RINGS[(4, 4)]
    few = seconds(program, rounds, (1, 1, 2, 2), four)
    print(f"{HOPS / few / 1e6:.2f} million hops a second on 4 tiles")
    for name, shape, ring in [("16 tiles", (1, 1, 4, 4), sixteen), ("4 of 256 tiles", (4, 4, 4, 4), four)]:
        print(f"a hop on {name} costs {seconds(program, rounds, shape, ring) / few:.2f} times as much")


main()
