"""The work of tools/wireshark.sh, which says what is compared and why: DRIVER COUNT SEED. Prints a line for each kind of PDU, and fails if
any field differs from what its command meant, if a command is refused, or if a changed bit goes unseen."""
import binascii
import os
import random
import struct
import subprocess
import sys
import tempfile

WIDTHS = (1, 2, 4, 8)
CONDITIONS = (0, 1, 2, 3, 4, 5, 6, 7, 8, 9, 10, 11, 14, 15)
MOST_PAIRS = 8190
ROOM = 65563
# a capture file's link type for the user, and how tshark is told that CFDP stands in it
LINK_USER = 147
AS_CFDP = 'uat:user_dlts:"User 0 (DLT=147)","cfdp","0","","0",""'
HEADER = "version pdu_type direction trans_mode crc_flag res1 data_length res2 entid_length res3 transeqnum_length srcid transeqnum dstid fdtype"
OWN = "nak_st_scope nak_sp_scope segment_requests condition_code spare_four checksum file_size dir_code_ack dir_subtype_ack spare_two trans_stat_ack"
OWN += " segment_control spare_seven src_file_name dst_file_name entity crc"
FIELDS = ["cfdp." + name for name in (HEADER + " " + OWN).split()] + ["data.data", "_ws.malformed"]


def number(width):
    """A number of that many bytes, often at an end of what they hold."""
    most = 256**width - 1
    return random.choice((0, 1, most, most // 2 + 1, random.randint(0, most), random.randint(0, most)))


class Header:
    """A random header, without the large file flag."""

    def __init__(self):
        self.direction, self.mode, self.crc, self.control, self.metadata = (random.randrange(2) for _ in range(5))
        self.entity, self.sequence = random.choice(WIDTHS), random.choice(WIDTHS)
        self.source, self.number, self.destination = number(self.entity), number(self.sequence), number(self.entity)

    def words(self):
        """As the line protocol has it; direction and length are worked out by the writer."""
        flags = f"0 {self.direction} {self.mode} {self.crc} 0 {self.control} {self.metadata}"
        return f"{flags} 0 {self.entity} {self.source} {self.sequence} {self.number} {self.entity} {self.destination}"

    def meant(self, code, direction, length):
        """What tshark is to see of it, in a PDU of that directive with so many bytes of data, the checksum aside."""
        values = (1, 0, direction, self.mode, self.crc, 0, length + 2 * self.crc, self.control, self.entity - 1, self.metadata)
        values += (self.sequence - 1, self.source, self.number, self.destination, code)
        return dict(zip(FIELDS, map(str, values)))


def nak(i):
    """One in a thousand has as many pairs as fit, and many have none."""
    h, start, end = Header(), number(4), number(4)
    if i % 1000 == 0:
        pair = (number(4), number(4))
        words, numbers = f"n:{MOST_PAIRS}*{pair[0]},{pair[1]}", pair * MOST_PAIRS
    else:
        numbers = [number(4) for _ in range(2 * random.choice((0, 0, 1, 1, 2, 3, 20)))]
        words = "n:" + ",".join(map(str, numbers))
    area = b"".join(struct.pack(">I", n) for n in numbers)
    meant = h.meant(8, 1, 9 + len(area))
    meant |= {"cfdp.nak_st_scope": str(start), "cfdp.nak_sp_scope": str(end), "cfdp.segment_requests": area.hex() or "<MISSING>"}
    return f"write {h.words()} {start} {end} {words} {ROOM}*EE", meant, b""


def eof(i):
    """Half of them have a fault location."""
    h, condition, total, size = Header(), random.choice(CONDITIONS), number(4), number(4)
    width = random.choice(WIDTHS)
    value, there = number(width), random.randrange(2)
    fault = bytes([6, width]) + value.to_bytes(width, "big") if there else b""
    meant = h.meant(4, 0, 10 + len(fault))
    meant |= {"cfdp.condition_code": str(condition), "cfdp.spare_four": "0", "cfdp.checksum": f"0x{total:08x}", "cfdp.file_size": str(size)}
    word = f"{width}:{value}" if there else "-"
    if len(fault) > 4 + 2 * h.entity + h.sequence:
        meant["cfdp.entity"], fault = fault[2:].hex(), b""
    return f"weof {h.words()} {condition} {total} {size} {word} {ROOM}*EE", meant, fault


def ack(i):
    h, directive, condition, status = Header(), random.choice((4, 5)), random.choice(CONDITIONS), random.randrange(4)
    of_eof = directive == 4
    meant = h.meant(6, int(of_eof), 3)
    meant |= {"cfdp.dir_code_ack": str(directive), "cfdp.dir_subtype_ack": str(int(not of_eof)), "cfdp.condition_code": str(condition)}
    meant |= {"cfdp.spare_two": "0", "cfdp.trans_stat_ack": str(status)}
    return f"wack {h.words()} {directive} {condition} {status} {ROOM}*EE", meant, b""


def metadata(i):
    """Names of letters, which tshark shows as they are."""
    h, closure, checksum_type, size = Header(), random.randrange(2), random.choice((0, 1, 2, 3, 15)), number(4)
    names = ["".join(random.choices("abcxyz./_-", k=random.choice((0, 1, 5, 40, 255)))) for _ in range(2)]
    meant = h.meant(7, 0, 8 + len(names[0]) + len(names[1]))
    meant |= {"cfdp.segment_control": "0", "cfdp.spare_seven": str(64 * closure + checksum_type), "cfdp.file_size": str(size)}
    meant |= {"cfdp.src_file_name": names[0], "cfdp.dst_file_name": names[1]}
    words = " ".join(name.encode().hex() or "-" for name in names)
    return f"wmetadata {h.words()} {closure} {checksum_type} {size} {words} - {ROOM}*EE", meant, b""


KINDS = (nak, eof, ack, metadata)


def written(driver, commands):
    """The PDUs that the driver writes: those bytes of its buffer that it says it wrote."""
    answers = subprocess.run([driver], input="\n".join(commands) + "\n", stdout=subprocess.PIPE, text=True, check=True).stdout.split("\n")
    for command, answer in zip(commands, answers):
        words = answer.split()
        if "ok" not in words[:2]:
            raise SystemExit(f"{command}\nis answered with {answer[:200]}")
        yield bytes.fromhex(words[-1])[: int(words[words.index("written") + 1])]


def has(driver, kind):
    """Whether the driver knows the command."""
    answer = subprocess.run([driver], input=kind(1)[0] + "\n", stdout=subprocess.PIPE, text=True, check=True).stdout
    return not answer.startswith("bad")


def after_fields(meant, rest, pdu):
    """What stands after the fields that the dissector knows, the checksum by Python's own function: it takes two bytes for it with the flag."""
    if meant["cfdp.crc_flag"] == "1":
        rest += struct.pack(">H", binascii.crc_hqx(pdu[:-2], 0xFFFF))
        meant["cfdp.crc"], rest = "0x" + rest[:2].hex(), rest[2:]
    meant["data.data"] = rest.hex()


def seen(pdus):
    """The fields of each PDU, as tshark shows them."""
    with tempfile.NamedTemporaryFile(suffix=".pcap") as capture:
        capture.write(struct.pack("<IHHiIII", 0xA1B2C3D4, 2, 4, 0, 0, 262144, LINK_USER))
        for i, pdu in enumerate(pdus):
            capture.write(struct.pack("<IIII", i, 0, len(pdu), len(pdu)) + pdu)
        capture.flush()
        asked = [word for field in FIELDS for word in ("-e", field)]
        command = ["tshark", "-r", capture.name, "-o", AS_CFDP, "-T", "fields", "-E", "occurrence=a", *asked]
        lines = subprocess.run(command, stdout=subprocess.PIPE, stderr=subprocess.DEVNULL, text=True, check=True, errors="replace").stdout
    return [dict(zip(FIELDS, line.split("\t"))) for line in lines.split("\n")[: len(pdus)]]


def changed(pdu):
    """The PDU with one bit changed."""
    at = random.randrange(8 * len(pdu))
    return pdu[: at // 8] + bytes([pdu[at // 8] ^ 1 << at % 8]) + pdu[at // 8 + 1 :]


def differing(meant, shown):
    return [field for field in FIELDS if shown.get(field, "") != meant.get(field, "")]


def compare(driver, kind, count):
    """How many of that kind are not as meant, and how many changed ones look as meant."""
    made = [kind(i) for i in range(count)]
    pdus = list(written(driver, [command for command, _, _ in made]))
    for (_, meant, rest), pdu in zip(made, pdus):
        after_fields(meant, rest, pdu)
    wrong = 0
    for (command, meant, _), shown in zip(made, seen(pdus)):
        if fields := differing(meant, shown):
            wrong += 1
            print(f"{command[:300]}\n  differs in", *(f"{f}: meant {meant.get(f, '')}, seen {shown.get(f, '')}" for f in fields))
    unseen = sum(not differing(meant, shown) for (_, meant, _), shown in zip(made, seen([changed(pdu) for pdu in pdus])))
    print(f"{kind.__name__}: {count} written, {count - wrong} seen as meant; {count} with one bit changed, {count - unseen} seen to be")
    return wrong + unseen


def main():
    driver, count, seed = os.path.abspath(sys.argv[1]), int(sys.argv[2]), int(sys.argv[3])
    random.seed(seed)
    amiss = 0
    for kind in KINDS:
        if has(driver, kind):
            amiss += compare(driver, kind, count)
        else:
            print(f"{kind.__name__}: not asked, the driver has no such command")
    print(f"wireshark: {amiss} amiss")
    return 1 if amiss or count < 1 else 0


sys.exit(main())
