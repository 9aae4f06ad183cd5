"""The recording on which the programs are measured and counted."""

TABLE = bytes.fromhex("0600000100010101020203010002")
FLAGS = [0, 0, 0, 0, 0x10000000, 0x20000000, 0x04000000, 0x00020000, 0x18000000, 0x10008000, 0x14000000]
KINDS = [1] * 6 + [2] * 58 + [3] * 8 + [4] * 24 + [5] * 4
BLOCK = 100_000


def write_recording(file, count):
    """A table and `count` records, from a fixed generator: 100,000 of them, again and again."""
    state, block = 0x2545F491, bytearray()
    for _ in range(min(count, BLOCK)):
        state ^= state << 13 & 0xFFFFFFFF
        state ^= state >> 17
        state ^= state << 5 & 0xFFFFFFFF
        kind = KINDS[state % 100]
        screen = 0 if kind == 1 else (state >> 8) % 6  # a launch's names the edition, and 0 is 8
        block += bytes((kind, screen)) + FLAGS[(state >> 16) % len(FLAGS)].to_bytes(4, "big")
    whole, rest = divmod(count, BLOCK)
    file.write(TABLE)
    for _ in range(whole):
        file.write(block)
    file.write(block[: 6 * rest])
    file.flush()
