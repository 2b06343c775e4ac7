"""header_bytes.py FOLDER: prints how many class files the folder has, their bytes, and the bytes that their headers keep: the
names of each class, its superclass and its interfaces, the names and descriptors of its members, and two bytes of flags for
the class and for each member."""
import os
import struct
import sys

# how many bytes stand behind the tag of a constant; those of a Utf8 stand behind their number
LENGTHS = {3: 4, 4: 4, 5: 8, 6: 8, 7: 2, 8: 2, 9: 4, 10: 4, 11: 4, 12: 4, 15: 3, 16: 2, 17: 4, 18: 4, 19: 2, 20: 2}


class Reader:
    def __init__(self, data):
        self.data = data
        self.at = 0

    def number(self, form):
        (value,) = struct.unpack_from(form, self.data, self.at)
        self.at += struct.calcsize(form)
        return value

    def u1(self):
        return self.number(">B")

    def u2(self):
        return self.number(">H")

    def u4(self):
        return self.number(">I")


def read_pool(reader):
    """The lengths of texts by index, and the indices that Class constants name."""
    texts, classes = {}, {}
    count, index = reader.u2(), 1
    while index < count:
        tag = reader.u1()
        if tag == 1:
            texts[index] = reader.u2()
            reader.at += texts[index]
        elif tag == 7:
            classes[index] = reader.u2()
        else:
            reader.at += LENGTHS[tag]
        index += 2 if tag in (5, 6) else 1
    return texts, classes


def header_bytes(data):
    reader = Reader(data)
    reader.at = 8
    texts, classes = read_pool(reader)
    reader.u2()
    named = [reader.u2(), reader.u2()]
    named += [reader.u2() for _ in range(reader.u2())]
    kept = 2 + sum(texts[classes[index]] for index in named if index != 0)
    for _ in range(2):
        for _ in range(reader.u2()):
            reader.u2()
            kept += 2 + texts[reader.u2()] + texts[reader.u2()]
            for _ in range(reader.u2()):
                reader.u2()
                length = reader.u4()
                reader.at += length
    return kept


files = size = kept = 0
for folder, _, names in os.walk(sys.argv[1]):
    for name in names:
        with open(os.path.join(folder, name), "rb") as file:
            content = file.read()
        files += 1
        size += len(content)
        kept += header_bytes(content)
print(files, size, kept)
