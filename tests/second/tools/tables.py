"""Prints the two tables of src/characters.rs.

Usage: python3 tools/tables.py PATH_OF_SOURCE_DOCUMENT_004

LATIN     from Appendix B of document 004, table 00: in each cell the printed
          hexadecimal code point counts, not the (scanned) glyph.
COMPOSED  from python3's unicodedata: NFC of letter + accent, kept when it is
          one code point.
"""
import re
import sys
import unicodedata

lines = open(sys.argv[1], encoding="utf-8").read().split("\n")
start = next(i for i, l in enumerate(lines) if l.startswith("Таблица символьных кодов 00"))
rows = lines[start + 3:start + 19]

latin = [0] * 256
for low, row in enumerate(rows):
    assert int(row[:2], 16) == low, row
    # Two rows have cells glued together by lost tabs: row 09 lost the empty
    # columns 00 and 10 and the tab before ")"; row 0D lost the tab before "]".
    row = row.replace("09) 0029", "09\t\t\t) 0029").replace("M 004D] 005D", "M 004D\t] 005D")
    cells = row.split("\t")[1:]
    assert len(cells) == 16, (low, len(cells), row)
    for high, cell in enumerate(cells):
        points = re.findall(r"(?<![0-9A-Fa-f])([0-9A-F]{4})$", cell.strip())
        assert len(points) == (1 if cell.strip() else 0), (low, high, cell)
        if points:
            latin[high * 16 + low] = int(points[0], 16)

assert not any(latin[0:0x20]) and not any(latin[0x7F:0xA0])
printed_accents = {c: latin[c] for c in range(0xC0, 0xD0)}
for code in range(0xC0, 0xD0):      # C0h is empty; document 01 has its own C1h..CFh
    latin[code] = 0

print("// printed for C0h..CFh:", {hex(k): hex(v) for k, v in printed_accents.items()})
print("// empty:", [hex(c) for c in list(range(0x20, 0x7F)) + list(range(0xA0, 0x100)) if not latin[c]])


def table(name, values, first, last):
    print(f"const {name}: [u16; {last - first + 1}] = [")
    for code in range(first, last + 1, 8):
        row = ", ".join(f"0x{values[c]:04X}" for c in range(code, min(code + 8, last + 1)))
        print(f"    {row}, // {code:02X}h")
    print("];")


table("LATIN_20H_TO_7EH", latin, 0x20, 0x7E)
table("LATIN_A0H_TO_FFH", latin, 0xA0, 0xFF)

accents = [0x0300, 0x0301, 0x0302, 0x0303, 0x0304, 0x0306, 0x0307, 0x0308, 0x030A, 0x0327, 0x030B, 0x0328, 0x030C]
codes = [0xC1, 0xC2, 0xC3, 0xC4, 0xC5, 0xC6, 0xC7, 0xC8, 0xCA, 0xCB, 0xCD, 0xCE, 0xCF]
letters = [chr(c) for c in range(0x41, 0x5B)] + [chr(c) for c in range(0x61, 0x7B)]
seen = set()
print("const COMPOSED: [[u16; 52]; 13] = [")
for code, accent in zip(codes, accents):
    line = []
    for letter in letters:
        one = unicodedata.normalize("NFC", letter + chr(accent))
        point = ord(one) if len(one) == 1 else 0
        if point:
            assert 0xC0 <= point <= 0x1EF9 and point not in seen
            seen.add(point)
        line.append(point)
    print(f"    // {code:02X}h, U+{accent:04X}: A to Z, then a to z")
    print("    [")
    for half in (line[:26], line[26:]):
        for at in range(0, 26, 9):
            print("        " + ", ".join(f"0x{p:04X}" for p in half[at:at + 9]) + ",")
    print("    ],")
print("];")
print("// composed letters:", len(seen), "unicodedata", unicodedata.unidata_version)
