"""spool.py FOLDER COUNT: makes what bench/spool.sh reads: a spool as innd makes it, with COUNT articles of 1 KiB in a
tradspool in wire format (group 1) and as many as they are (group 2), and a buffer of CNFS with as many more. FOLDER/wire,
FOLDER/native and FOLDER/cnfs have a line for each of these articles: its token and its message-id."""
import os
import struct
import sys

LINE = b"A line of an article, as long as most of them are, or so.\r\n"
BLOCK = 512
HEAD = struct.Struct(">IIIIB7x")


def article(name):
    head = b"Path: not-for-mail\r\nSubject: bench\r\nMessage-ID: " + name + b"\r\n\r\n"
    return head + LINE * ((1024 - len(head)) // len(LINE))


def tradspool(folder, kind, group, count):
    directory = f"{folder}/spool/articles/bench/{kind}"
    os.makedirs(directory)
    with open(f"{folder}/{kind}", "wb") as feed:
        for number in range(1, count + 1):
            name = b"<%d@%s.bench>" % (number, kind.encode())
            text = article(name)
            with open(f"{directory}/{number}", "wb") as file:
                file.write(text + b".\r\n" if kind == "wire" else text.replace(b"\r\n", b"\n"))
            feed.write(b"@0500%08X%08X%08X%08X@ %s\n" % (group, 0, number, 0, name))


def cnfs(folder, count):
    texts = [article(b"<%d@cnfs.bench>" % number) + b".\r\n" for number in range(count)]
    blocks = (HEAD.size + max(map(len, texts)) + BLOCK - 1) // BLOCK
    bits_end = BLOCK + 8 * ((count * blocks + BLOCK) // 64 + 2)
    first = (bits_end + BLOCK - 1) // BLOCK
    length = BLOCK * (first + (count + 1) * blocks)
    buffer = bytearray(length)
    numbers = {88: length, 104: BLOCK * (first + count * blocks), 136: 1, 192: BLOCK}
    buffer[:8] = b"CBuf4\0\0\0"
    buffer[8:13] = b"BENCH"
    for at, number in numbers.items():
        buffer[at:at + 16] = b"%016x" % number
    with open(f"{folder}/cnfs", "wb") as feed:
        for number, text in enumerate(texts):
            block = first + number * blocks
            bit = 512 + 8 * (block // 64)
            word = struct.unpack_from("<Q", buffer, bit)[0] | 1 << (63 - block % 64)
            struct.pack_into("<Q", buffer, bit, word)
            HEAD.pack_into(buffer, block * BLOCK, len(text), 0, 1, 0, 0)
            at = block * BLOCK + HEAD.size
            buffer[at:at + len(text)] = text
            feed.write(b"@0300%s%08X%08X@ <%d@cnfs.bench>\n" % (b"BENCH\0\0\0".hex().upper().encode(), block, 1, number))
    with open(f"{folder}/buffer", "wb") as file:
        file.write(buffer)
    with open(f"{folder}/cycbuff.conf", "w", encoding="ascii") as file:
        file.write(f"cycbuff:BENCH:{folder}/buffer:{(length + 1023) // 1024}\n")


def main(folder, count):
    tradspool(folder, "wire", 1, int(count))
    tradspool(folder, "native", 2, int(count))
    with open(f"{folder}/spool/tradspool.map", "w", encoding="ascii") as file:
        file.write("bench/wire 1\nbench/native 2\n")
    cnfs(folder, int(count))


main(*sys.argv[1:])
