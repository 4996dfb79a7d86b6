"""Random data sheets of the device."""
import collections
import configparser
import re

SIZES = {1: 1, 2: 1, 3: 2, 4: 4, 5: 1, 6: 2, 7: 4}
Entry = collections.namedtuple("Entry", "kind access low high default")


def sheet_of(it, stores):
    """The text of a data sheet, with which the device begins."""
    with open("examples/io-module.eds", encoding="ascii") as file:
        text = file.read()

    def default(section, value):
        nonlocal text
        text = re.sub(rf"(?s)(\[{section}\]\n(?:(?!\n\[).)*?\nDefaultValue=)[^\n]*", rf"\g<1>{value}", text)

    default("1017", it.choice([0, 0, 50, 100, 200, 500, 1000, 2000]))
    default("1015", it.choice([0, 0, 100, 500, 2000, 10000]))
    default("1029sub1", it.choice([0, 0, 1, 2]))
    for tpdo in ("1800", "1801"):
        default(f"{tpdo}sub2", it.choice([0, 1, 1, 2, 3, 5, 240, 254, 255, 255, 255]))
        default(f"{tpdo}sub3", it.choice([0, 0, 100, 500, 1000, 5000]))
        default(f"{tpdo}sub5", it.choice([0, 0, 20, 100, 500, 1500]))
    if it.random() < 0.15:
        text = text.replace("SimpleBootUpMaster=0", "SimpleBootUpMaster=1")
    if stores and it.random() < 0.2:
        text = text.replace("SupportedObjects=31\n", "SupportedObjects=32\n32=0x1010\n") + "\n[1010]\nParameterName=Store\nObjectType=8\n"
        text += "SubNumber=2\n[1010sub0]\nParameterName=Count\nDataType=5\nAccessType=const\nDefaultValue=1\n"
        text += "[1010sub1]\nParameterName=Save all\nDataType=7\nAccessType=rw\nDefaultValue=1\n"
    return text


def entries_of(text, node):
    """The entries of a data sheet."""
    sheet = configparser.ConfigParser(strict=False, interpolation=None)
    sheet.read_string(text)
    entries = {}
    for name in sheet.sections():
        found = re.fullmatch(r"([0-9A-F]{4})(?:sub([0-9A-F]+))?", name)
        if not found or "datatype" not in sheet[name]:
            continue

        def number(field, size):
            value = re.sub(r"(?i)\$nodeid", str(node), sheet[name].get(field, "")).replace(" ", "")
            return (sum(int(part, 0) for part in value.split("+")) % 256**size) if value else None

        kind, access, size = int(sheet[name]["datatype"], 0), sheet[name]["accesstype"], SIZES.get(int(sheet[name]["datatype"], 0))
        text = sheet[name].get("defaultvalue", "")
        data = (number("defaultvalue", size) or 0).to_bytes(size, "little") if size else text.encode()
        data = bytes.fromhex(text) if kind == 10 else data
        limits = [number(field, size) if size else None for field in ("lowlimit", "highlimit")]
        if kind == 3:
            limits = [limit - 65536 if limit is not None and limit > 32767 else limit for limit in limits]
        entries[int(found[1], 16), int(found[2] or "0", 16)] = Entry(kind, access, *limits, data)
    return entries
