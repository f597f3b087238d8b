"""Runs of the other implementation over files, connections and a disk in memory, said as `run_lines` says them."""
import json

from reference.cli import run
from reference.outside import MemDisk, MemShelf, MemSink


def output(data):
    """Output as a text in quotes, if it is one, or else in hexadecimal."""
    try:
        return json.dumps(data.decode(), ensure_ascii=False)
    except UnicodeDecodeError:
        return data.hex()


def talk_text(words, files, net, disk=None):
    """The status and the output of a run with connections, and what was put on them."""
    sink = MemSink()
    status = run(words, MemShelf(files), disk or MemDisk(), net, sink)
    return f"{status} {output(bytes(sink.written))} {put_text(net)}"


def put_text(net):
    """What was put on connections."""
    return f"put {b''.join(map(bytes, net.sent)).hex()}"


def own_text(words, files, net, disk, crash=None):
    """The same with a disk, how many calls of it were made, and what it holds then or a crash leaves; and these bytes."""
    text = talk_text(words, files, net, disk)
    left = left_on(disk, crash)
    return f"{text} {disk_text(files, disk, left)}", left


def left_on(disk, crash):
    """What a disk holds, or what a crash leaves there."""
    return image_with(disk.moments[min(crash[0], disk.now())], crash[1]) if crash else bytes(disk.data)


def disk_text(files, disk, left):
    """How many calls of a disk were made, and what is left there."""
    return f"calls {disk.calls} disk {left_text(files, left)}"


def image_with(moment, lost):
    """The image that lost bytes make: they stand where a write was begun and past the old end, as far as writes reach."""
    down, ranges = moment
    furthest = max([len(down), *(end for _, end in ranges)])
    image = bytearray(down) + lost[len(down):furthest]
    for at, end in ranges:
        for place in range(at, min(end, len(lost), len(image))):
            image[place] = lost[place]
    return bytes(image)


def left_text(files, data):
    """The name of the file that has these bytes, the latest one of several, or the bytes themselves."""
    for name in reversed(files):
        if files[name] == data:
            return f"={name}"
    return data.hex()
