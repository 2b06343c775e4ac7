"""large_class.py FILE: writes a class file of 1 MB, with sixteen static methods of 8,000 jumps over four nops each (64,001 bytes of code)."""
import struct
import sys

METHODS = 16
ILOAD_0, IFEQ, NOP, RETURN = b"\x1a", b"\x99", b"\0", b"\xb1"


def utf8(text):
    return b"\1" + struct.pack(">H", len(text)) + text


def class_file():
    desc, max_locals, table = b"(I)V", 1, struct.pack(">H", 0)
    code = (ILOAD_0 + IFEQ + struct.pack(">h", 7) + NOP * 4) * 8000 + RETURN
    texts = [b"M", b"java/lang/Object", desc, b"Code", b"StackMapTable"] + [b"m%d" % number for number in range(METHODS)]
    classes = [b"\7" + struct.pack(">H", index) for index in (1, 2)]
    frames = struct.pack(">HI", 5, len(table)) + table
    parts = struct.pack(">HHI", 1, max_locals, len(code)) + code + struct.pack(">HH", 0, 1) + frames
    methods = [
        struct.pack(">HHHHHI", 0x0009, 6 + number, 3, 1, 4, len(parts)) + parts for number in range(METHODS)
    ]
    count = len(texts) + len(classes)
    head = struct.pack(">IHHH", 0xCAFEBABE, 0, 52, count + 1)
    pool = b"".join(map(utf8, texts)) + b"".join(classes)
    return (
        head + pool + struct.pack(">HHHHH", 0x0021, count - 1, count, 0, 0) + struct.pack(">H", METHODS)
        + b"".join(methods) + struct.pack(">H", 0)
    )


with open(sys.argv[1], "wb") as file:
    file.write(class_file())
