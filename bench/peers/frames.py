"""Frames over a connection, as plain loops of Python: what bench/frames compares sia_bench with where there is no C compiler. The
words are those of frames.c."""

import socket
import sys
import time


def address(word):
    host, _, port = word.rpartition(":")
    return host, int(port)


def give(where, size, count):
    with socket.create_server(address(where)) as door:
        link, _ = door.accept()
    link.setsockopt(socket.IPPROTO_TCP, socket.TCP_NODELAY, 1)
    frame = size.to_bytes(8, "little") + bytes([7]) * size
    start = time.perf_counter_ns()
    for _ in range(count):
        link.sendall(frame)
    print(f"give {time.perf_counter_ns() - start}\nframes {count}")
    link.close()


def take_all(link, size):
    """The bytes, or those before the end."""
    bytes_ = bytearray(size)
    left = memoryview(bytes_)
    while left:
        came = link.recv_into(left)
        if came == 0:
            break
        left = left[came:]
    return bytes_[: size - len(left)]


def take(where, limit):
    link = socket.create_connection(address(where))
    start, frames, count = time.perf_counter_ns(), 0, 0
    while len(prefix := take_all(link, 8)) == 8:
        size = int.from_bytes(prefix, "little")
        if size > limit or len(take_all(link, size)) != size:
            sys.exit("a frame above the limit, or cut off")
        frames, count = frames + 1, count + size
    print(f"take {time.perf_counter_ns() - start}\nframes {frames}\nbytes {count}")


if sys.argv[1] == "give":
    give(sys.argv[2], int(sys.argv[3]), int(sys.argv[4]))
else:
    take(sys.argv[2], int(sys.argv[3]))
