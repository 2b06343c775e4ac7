"""large_methods.py FOLDER KIND COUNT FILES: writes so many class files M0000.class and so on, each with one static method m:
    jumps   so many jumps over four nops each
    frames  so many nops behind stated frames of five kinds in turn
    stated  so many jumps, each over ten nops to a stated frame, 13 bytes each
    locals  a code of 65,535 bytes, of which all but the first are behind a frame that states so many int locals"""
import os
import struct
import sys

NOP, ILOAD_0, IFEQ, GOTO, RETURN = b"\0", b"\x1a", b"\x99", b"\xa7", b"\xb1"


def utf8(text):
    return b"\1" + struct.pack(">H", len(text)) + text


def class_file(name, desc, max_locals, code, table):
    """With the content of a StackMapTable."""
    texts = [name, b"java/lang/Object", b"m", desc, b"Code", b"StackMapTable"]
    pool = b"".join(map(utf8, texts)) + b"\7" + struct.pack(">H", 1) + b"\7" + struct.pack(">H", 2)
    frames = struct.pack(">HI", 6, len(table)) + table
    parts = struct.pack(">HHI", 1, max_locals, len(code)) + code + struct.pack(">HH", 0, 1) + frames
    method = struct.pack(">HHHHHI", 0x0009, 3, 4, 1, 5, len(parts)) + parts
    head = struct.pack(">IHHH", 0xCAFEBABE, 0, 52, 9)
    return head + pool + struct.pack(">HHHHHH", 0x0021, 7, 8, 0, 0, 1) + method + struct.pack(">H", 0)


def jumps(count):
    return b"(I)V", 1, (ILOAD_0 + IFEQ + struct.pack(">h", 7) + NOP * 4) * count + RETURN, struct.pack(">H", 0)


def frames(count):
    """The same, the same with an int, one int more, one less, and a full frame."""
    kinds = [b"\0", b"\x40\1", b"\xfc\0\0\1", b"\xfa\0\0", b"\xff\0\0\0\1\1\0\1\1"]
    return b"(I)V", 4, NOP * count + RETURN, struct.pack(">H", count) + b"".join(kinds[number % 5] for number in range(count))


def stated(count):
    """Each goto goes over ten nops, to the next; these nops have a stated frame too, since nothing flows in."""
    code = (GOTO + struct.pack(">h", 13) + NOP * 10) * count + RETURN
    table, last = b"", -1
    for block in range(count):
        for at in (13 * block + 3, 13 * block + 13):
            table += bytes([at - last - 1])
            last = at
    return b"()V", 0, code, struct.pack(">H", 2 * count) + table


def wide(count):
    code = RETURN + NOP * 65533 + RETURN
    frame = b"\xff" + struct.pack(">HH", 1, count) + b"\1" * count + struct.pack(">H", 0)
    return b"()V", count, code, struct.pack(">H", 1) + frame


KINDS = {"jumps": jumps, "frames": frames, "stated": stated, "locals": wide}

folder, kind, count, files = sys.argv[1], sys.argv[2], int(sys.argv[3]), int(sys.argv[4])
made = KINDS[kind](count)
for number in range(files):
    with open(os.path.join(folder, f"M{number:04}.class"), "wb") as file:
        file.write(class_file(f"M{number:04}".encode(), *made))
