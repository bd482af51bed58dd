"""Times the check of routing tables: what a beat costs in tables of 4,096 and of 65,536 beats, in one run.

    time_tables.py PROGRAM [ROUNDS]

Runs `PROGRAM run` on machines of 16 boards whose one thread each ends at once. The boards share the beats evenly. Each beat
leads to four threads and on to the next beat of its board, in chains of 64. Each job is run ROUNDS times (5 where it is left
out), and the least user time counts, less that of the machine without tables. Some of it is the reading of the text, which is
as long for each beat. The reports are compared with what they must be.
"""
import sys

from timing import user_time

BOARDS = [(x, y) for y in range(4) for x in range(4)]
LONGEST = 64
REPORT = "".join(f"exit {x * 1024 + y * 4096} 0\n" for x, y in BOARDS) + "done\n"
HEAD = "tinsel 1\nshape 4 4 1 1 1 1\ncode all\n80b01073\nend\n"
TO_THREAD = 0
TAG_IND = 4


def beat(after):
    """Four URM1 to the board's thread, and an IND to the one beat from place `after` on, if there is one."""
    chunks = [TO_THREAD] * 4
    if after is not None:
        key = after * 256 + 1
        chunks.append(TAG_IND + key * 8)
    chunks += [0] * (5 - len(chunks))
    used = 4 if after is None else 5
    return used.to_bytes(2, "little").hex() + "".join(c.to_bytes(6, "little").hex() for c in chunks)


def job(beats):
    each = beats // len(BOARDS)
    table = "\n".join(beat(i + 1 if (i + 1) % LONGEST and i + 1 < each else None) for i in range(each))
    return HEAD + "".join(f"table {x} {y}\n{table}\nend\n" for x, y in BOARDS)


def seconds(program, rounds, beats):
    text = job(beats)
    return min(user_time(program, text, REPORT) for _ in range(rounds))


def main():
    program = sys.argv[1]
    rounds = int(sys.argv[2]) if len(sys.argv) > 2 else 5
    nothing = min(user_time(program, HEAD, REPORT) for _ in range(rounds))
    few, many = (seconds(program, rounds, beats) - nothing for beats in (4_096, 65_536))
    print(f"{few / 4_096 * 1e6:.1f} microseconds a beat in 4,096 beats")
    print(f"a beat in 65,536 beats costs {many / 65_536 / (few / 4_096):.2f} times as much, {many:.2f} seconds in all")


main()
