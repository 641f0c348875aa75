"""Other programs on the requests, answers and frames of a table that the gate compares with our codecs, row by row.

tshark dissects the bytes, as TCP segments of a pcap file, and has to find the parts that the row says. scapy's automotive
layers build the message from the parts and have to come to the bytes, and take the bytes apart again. Each of the two is
skipped where it is missing. The status is 1 where one of them says anything else.
"""

import os
import shutil
import struct
import subprocess
import sys
import tempfile

TABLE = os.path.join(os.path.dirname(os.path.abspath(__file__)), "..", "crates", "codec_tests", "data", "asked")
TESTER, UNIT = 0x0E80, 0x1001


class Line:
    """A row of the table: what it is of, which kind, its parts, and its bytes."""

    def __init__(self, row):
        _, _, call, wanted, digits = row.split("\t")
        text = f"{call} {wanted} bytes={digits}"
        self.text = text if len(text) < 100 else text[:97] + ".."
        self.sort, self.kind, *parts = text.split(" ")
        self.parts = dict(part.split("=", 1) for part in parts)
        self.bytes = bytes.fromhex(self.parts.pop("bytes"))

    def number(self, part):
        return int(self.parts[part])

    def octets(self, part):
        return bytes.fromhex(self.parts[part])

    def truth(self, part):
        return {"true": True, "false": False}[self.parts[part]]

    def optional(self):
        """The four optional bytes of a routing activation."""
        oem = self.parts["oem"]
        return None if oem == "none" else int(oem)


def table():
    with open(TABLE, encoding="ascii") as file:
        return [Line(row) for row in file.read().splitlines() if row.startswith("row\t")]


# ------ pcap files, by the libpcap file format
def packet(payload, sequence):
    """An Ethernet frame with a TCP segment from the tester to the entity's port 13400."""
    tcp = struct.pack("!HHIIBBHHH", 50000, 13400, sequence, 1, 0x50, 0x18, 65535, 0, 0)
    size = 20 + len(tcp) + len(payload)
    ip = struct.pack("!BBHHHBBH4s4s", 0x45, 0, size, 0, 0x4000, 64, 6, 0, bytes([10, 0, 0, 1]), bytes([10, 0, 0, 2]))
    return bytes.fromhex("020000000002020000000001") + b"\x08\x00" + ip + tcp + payload


def write_pcap(path, payloads):
    with open(path, "wb") as file:
        file.write(struct.pack("<IHHiIII", 0xA1B2C3D4, 2, 4, 0, 0, 262144, 1))
        sequence = 1
        for i, payload in enumerate(payloads):
            data = packet(payload, sequence)
            sequence += len(payload)
            file.write(struct.pack("<IIII", i, 0, len(data), len(data)))
            file.write(data)


def carried(line):
    """The bytes of a frame, or a diagnostic message with the request or the answer."""
    if line.sort == "frame":
        return line.bytes
    source, target = (TESTER, UNIT) if line.sort == "request" else (UNIT, TESTER)
    return struct.pack("!BBHIHH", 3, 0xFC, 0x8001, 4 + len(line.bytes), source, target) + line.bytes


# ------ what tshark has to find
def wanted_of_request(line):
    kind = line.kind
    if kind == "session":
        return {"uds.sid": 0x10, "uds.dsc.type": line.number("kind")}
    if kind == "reset":
        return {"uds.sid": 0x11, "uds.er.type": 1}
    if kind == "read_id":
        return {"uds.sid": 0x22, "uds.rdbi.data_identifier": line.number("did")}
    if kind == "seed":
        return {"uds.sid": 0x27, "uds.sa.type": line.number("level")}
    if kind == "key":
        return {"uds.sid": 0x27, "uds.sa.type": line.number("level") + 1, "uds.sa.key": line.octets("key")}
    if kind == "routine":
        return {
            "uds.sid": 0x31,
            "uds.rc.type": 1,
            "uds.rc.identifier": line.number("id"),
            "uds.rc.option_record": line.octets("option"),
        }
    if kind == "download":
        return {
            "uds.sid": 0x34,
            "uds.rd.compression_method": 0,
            "uds.rd.encrypting_method": 0,
            "uds.rd.memory_size_length": line.number("size_width"),
            "uds.rd.memory_address_length": line.number("at_width"),
            "uds.rd.memory_address": line.number("at"),
            "uds.rd.memory_size": line.number("size"),
        }
    if kind == "upload":
        # tshark 4.0 has no fields for the parts of an upload.
        return {"uds.sid": 0x35}
    if kind in ("transfer", "pull"):
        return {"uds.sid": 0x36, "uds.td.block_sequence_counter": line.number("counter")}
    if kind == "setting":
        return {"uds.sid": 0x85, "uds.cdtcs.type": 2 if line.truth("off") else 1}
    if kind == "messages":
        # Nor for the parts of a communication control.
        return {"uds.sid": 0x28}
    return {"uds.sid": 0x37}


def wanted_of_answer(line):
    if line.kind == "negative":
        return {"uds.sid": 0x3F, "uds.reply": 1, "uds.err.sid": line.number("sid"), "uds.err.code": line.number("nrc")}
    sid, rest = line.number("sid"), line.octets("rest")
    wanted = {"uds.sid": sid, "uds.reply": 1}
    if sid == 0x10:
        wanted.update({"uds.dsc.type": rest[0], "uds.dsc.parameter_record": rest[1:]})
    elif sid == 0x11:
        wanted["uds.er.type"] = rest[0]
    elif sid == 0x22:
        identifier = int.from_bytes(rest[:2], "big")
        wanted.update({"uds.rdbi.data_identifier": identifier, "uds.rdbi.data_record": rest[2:]})
    elif sid == 0x27:
        wanted.update({"uds.sa.type": rest[0], "uds.sa.seed": rest[1:]})
    elif sid == 0x31:
        identifier = int.from_bytes(rest[1:3], "big")
        wanted.update({"uds.rc.type": rest[0], "uds.rc.identifier": identifier, "uds.rc.info": rest[3]})
    elif sid == 0x34:
        wanted["uds.rd.max_number_of_block_length_length"] = rest[0] // 16
        wanted["uds.rd.max_number_of_block_length"] = int.from_bytes(rest[1 : 1 + rest[0] // 16], "big")
    elif sid == 0x36:
        wanted["uds.td.block_sequence_counter"] = rest[0]
    elif sid == 0x85:
        wanted["uds.cdtcs.type"] = rest[0]
    return wanted


def wanted_of_frame(line):
    kind = line.kind
    if kind == "header_nack":
        return {"doip.type": 0, "doip.nack_code": line.number("code")}
    if kind == "activate":
        return {
            "doip.type": 5,
            "doip.source_address": line.number("source"),
            "doip.activation_type": line.number("kind"),
            "doip.reserved_iso": 0,
            "doip.reserved_oem": line.optional(),
        }
    if kind == "activated":
        return {
            "doip.type": 6,
            "doip.tester_logical_address": line.number("tester"),
            "doip.source_address": line.number("entity"),
            "doip.response_code": line.number("code"),
            "doip.reserved_iso": 0,
            "doip.reserved_oem": line.optional(),
        }
    if kind == "alive_ask":
        return {"doip.type": 7, "doip.length": 0}
    if kind == "alive_say":
        return {"doip.type": 8, "doip.source_address": line.number("source")}
    if kind == "other":
        return {"doip.type": line.number("kind"), "doip.length": len(line.octets("payload"))}
    wanted = {"doip.source_address": line.number("source"), "doip.target_address": line.number("target")}
    if kind == "message":
        return {"doip.type": 0x8001, "doip.length": 4 + len(line.octets("body")), **wanted}
    code = "doip.diag_ack_code" if kind == "ack" else "doip.diag_nack_code"
    number = 0x8002 if kind == "ack" else 0x8003
    return {"doip.type": number, code: line.number("code"), "doip.previous": line.octets("old"), **wanted}


def wanted_of(line):
    wanted = {"doip.version": 3, "doip.inverse": 0xFC, "doip.length": len(carried(line)) - 8}
    if line.sort == "request":
        return {**wanted, "doip.type": 0x8001, "uds.reply": 0, **wanted_of_request(line)}
    if line.sort == "answer":
        return {**wanted, "doip.type": 0x8001, **wanted_of_answer(line)}
    return {**wanted, **wanted_of_frame(line)}


def tshark(path, fields):
    """The values of the fields, packet by packet: a list of texts for each."""
    command = ["tshark", "-r", path, "-T", "fields", "-E", "separator=|", "-E", "aggregator=,"]
    for field in fields:
        command += ["-e", field]
    done = subprocess.run(command, capture_output=True, text=True, check=True)
    return [row.split("|") for row in done.stdout.splitlines()]


def means(value, text):
    """Whether what tshark printed is this number, these bytes, or nothing."""
    if value is None or value == b"":
        return text == ""
    if isinstance(value, bytes):
        return text.replace(":", "") == value.hex()
    return text != "" and all(int(one, 0) == value for one in text.split(","))


def ask_tshark(lines, folder):
    faults = []
    wanted = [wanted_of(line) for line in lines]
    fields = sorted({field for one in wanted for field in one})
    path = os.path.join(folder, "one_by_one.pcap")
    write_pcap(path, [carried(line) for line in lines])
    rows = tshark(path, fields + ["_ws.malformed", "_ws.expert.message"])
    if len(rows) != len(lines):
        return [f"tshark: {len(rows)} packets for {len(lines)} lines"]
    for line, want, row in zip(lines, wanted, rows):
        found = dict(zip(fields, row))
        for field, value in want.items():
            if not means(value, found[field]):
                faults.append(f"tshark: {field} is {found[field]!r}, not {value!r}: {line.text}")
        if row[-2]:
            faults.append(f"tshark: malformed, {row[-1]}: {line.text}")
    return faults


def ask_about_pieces(lines, folder):
    """The same frames as one stream, cut in pieces that know nothing of frames."""
    faults = []
    stream = b"".join(carried(line) for line in lines)
    wanted = [(wanted_of(line)["doip.type"], len(carried(line)) - 8) for line in lines]
    for size in (1, 7, 100, 1448):
        path = os.path.join(folder, f"pieces_of_{size}.pcap")
        write_pcap(path, [stream[i : i + size] for i in range(0, len(stream), size)])
        found = []
        for kinds, lengths in tshark(path, ["doip.type", "doip.length"]):
            if kinds:
                found += [(int(kind, 0), int(length, 0)) for kind, length in zip(kinds.split(","), lengths.split(","))]
        if found != wanted:
            faults.append(f"tshark: {len(found)} frames in pieces of {size}, {len(wanted)} were sent")
    return faults


# ------ what scapy builds
def layers_of_request(line):
    from scapy.contrib.automotive import uds

    kind = line.kind
    if kind == "session":
        return uds.UDS() / uds.UDS_DSC(diagnosticSessionType=line.number("kind"))
    if kind == "reset":
        return uds.UDS() / uds.UDS_ER(resetType="hardReset")
    if kind == "read_id":
        return uds.UDS() / uds.UDS_RDBI(identifiers=[line.number("did")])
    if kind == "seed":
        return uds.UDS() / uds.UDS_SA(securityAccessType=line.number("level"))
    if kind == "key":
        return uds.UDS() / uds.UDS_SA(securityAccessType=line.number("level") + 1, securityKey=line.octets("key"))
    if kind == "routine":
        routine = uds.UDS_RC(routineControlType="startRoutine", routineIdentifier=line.number("id"))
        return uds.UDS() / routine / line.octets("option")
    if kind in ("download", "upload"):
        at_width, size_width = line.number("at_width"), line.number("size_width")
        if at_width > 4:
            # scapy has fields for addresses of 1 to 4 bytes.
            return None
        numbers = {f"memoryAddress{at_width}": line.number("at"), f"memorySize{size_width}": line.number("size")}
        layer = uds.UDS_RD if kind == "download" else uds.UDS_RU
        return uds.UDS() / layer(memorySizeLen=size_width, memoryAddressLen=at_width, **numbers)
    if kind == "setting":
        return uds.UDS() / uds.UDS_CDTCS(DTCSettingType="off" if line.truth("off") else "on")
    if kind == "messages":
        # Of the byte behind, scapy names the bits from the high end; normal messages are bit 0 (ISO 14229-1, annex B).
        control = "disableRxAndTx" if line.truth("off") else "enableRxAndTx"
        return uds.UDS() / uds.UDS_CC(controlType=control, communicationType2=1)
    if kind == "pull":
        return uds.UDS() / uds.UDS_TD(blockSequenceCounter=line.number("counter"))
    if kind == "transfer":
        body = line.octets("body")
        return uds.UDS() / uds.UDS_TD(blockSequenceCounter=line.number("counter"), transferRequestParameterRecord=body)
    return uds.UDS() / uds.UDS_RTE()


def layers_of_answer(line):
    from scapy.contrib.automotive import uds

    if line.kind == "negative":
        return uds.UDS() / uds.UDS_NR(requestServiceId=line.number("sid"), negativeResponseCode=line.number("nrc"))
    sid, rest = line.number("sid"), line.octets("rest")
    if sid == 0x10:
        return uds.UDS() / uds.UDS_DSCPR(diagnosticSessionType=rest[0], sessionParameterRecord=rest[1:])
    if sid == 0x11:
        return uds.UDS() / uds.UDS_ERPR(resetType=rest[0])
    if sid == 0x22:
        return uds.UDS() / uds.UDS_RDBIPR(dataIdentifier=int.from_bytes(rest[:2], "big")) / rest[2:]
    if sid == 0x27:
        seed = {"securitySeed": rest[1:]} if rest[0] % 2 == 1 else {}
        return uds.UDS() / uds.UDS_SAPR(securityAccessType=rest[0], **seed)
    if sid == 0x31:
        identifier = int.from_bytes(rest[1:3], "big")
        return uds.UDS() / uds.UDS_RCPR(routineControlType=rest[0], routineIdentifier=identifier) / rest[3:]
    if sid in (0x34, 0x35):
        most = rest[1 : 1 + rest[0] // 16]
        layer = uds.UDS_RDPR if sid == 0x34 else uds.UDS_RUPR
        return uds.UDS() / layer(memorySizeLen=rest[0] // 16, maxNumberOfBlockLength=most)
    if sid == 0x36:
        return uds.UDS() / uds.UDS_TDPR(blockSequenceCounter=rest[0], transferResponseParameterRecord=rest[1:])
    if sid == 0x85:
        return uds.UDS() / uds.UDS_CDTCSPR(DTCSettingType=rest[0])
    if sid == 0x28:
        return uds.UDS() / uds.UDS_CCPR(controlType=rest[0])
    return uds.UDS() / uds.UDS_RTEPR()


def layers_of_frame(line):
    from scapy.contrib.automotive.doip import DoIP

    head = {"protocol_version": 3, "inverse_version": 0xFC}
    kind = line.kind
    if kind == "header_nack":
        return DoIP(payload_type=0, nack=line.number("code"), **head)
    if kind in ("activate", "activated"):
        oem = line.optional()
        head["reserved_oem"] = b"" if oem is None else struct.pack("!I", oem)
    if kind == "activate":
        return DoIP(payload_type=5, source_address=line.number("source"), activation_type=line.number("kind"), **head)
    if kind == "activated":
        return DoIP(
            payload_type=6,
            logical_address_tester=line.number("tester"),
            logical_address_doip_entity=line.number("entity"),
            routing_activation_response=line.number("code"),
            **head,
        )
    if kind == "alive_ask":
        return DoIP(payload_type=7, **head)
    if kind == "alive_say":
        return DoIP(payload_type=8, source_address=line.number("source"), **head)
    if kind == "other":
        # The table's one other frame is an entity status response.
        node, most, now, size = struct.unpack("!BBBI", line.octets("payload"))
        status = {"node_type": node, "max_open_sockets": most, "cur_open_sockets": now, "max_data_size": size}
        return DoIP(payload_type=line.number("kind"), **status, **head)
    head.update(source_address=line.number("source"), target_address=line.number("target"))
    if kind == "message":
        return DoIP(payload_type=0x8001, **head) / line.octets("body")
    if kind == "ack":
        return DoIP(payload_type=0x8002, ack_code=line.number("code"), previous_msg=line.octets("old"), **head)
    return DoIP(payload_type=0x8003, nack_code=line.number("code"), previous_msg=line.octets("old"), **head)


def layers_of(line):
    by_sort = {"request": layers_of_request, "answer": layers_of_answer, "frame": layers_of_frame}
    return by_sort[line.sort](line)


def ask_scapy(lines):
    faults = []
    for line in lines:
        built = layers_of(line)
        if built is None:
            continue
        if bytes(built) != line.bytes:
            faults.append(f"scapy: builds {bytes(built).hex()}: {line.text}")
            continue
        # What it built, taken apart again, has the same fields.
        again = type(built)(line.bytes)
        for name, value in built.fields.items():
            if again.getfieldval(name) != value:
                faults.append(f"scapy: reads {name} as {again.getfieldval(name)!r}: {line.text}")
    return faults


def main():
    lines = table()
    counts = ", ".join(f"{sum(line.sort == sort for line in lines)} {sort}s" for sort in ("request", "answer", "frame"))
    faults = []
    if shutil.which("tshark"):
        with tempfile.TemporaryDirectory() as folder:
            found = ask_tshark(lines, folder) + ask_about_pieces(lines, folder)
        faults += found
        print(f"tshark: {counts}, " + ("all as they are said" if not found else f"{len(found)} faults"))
    else:
        print("skipped: no tshark")
    try:
        import scapy.contrib.automotive.doip  # noqa: F401
    except ImportError:
        print("skipped: no scapy")
    else:
        found = ask_scapy(lines)
        faults += found
        unasked = sum(line.parts.get("at_width") == "5" for line in lines)
        said = "all as they are said" if not found else f"{len(found)} faults"
        print(f"scapy: {counts}, {said}, but for {unasked} with addresses of 5 bytes, which it has not")
    for fault in faults:
        print(fault)
    return 1 if faults else 0


sys.exit(main())
