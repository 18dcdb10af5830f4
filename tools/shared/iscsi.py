"""The PDUs of iSCSI that begin in a segment of a stream, and what they are in words (RFC 7143)."""

from __future__ import annotations

# the port at which targets listen, where a URI names none (RFC 7143, section 4.1)
USUAL_PORT = 3_260
HEAD = 48
# the names of PDUs by their opcodes (RFC 7143, section 11.2.1.2)
PDUS = {
    0x00: "NOP-Out", 0x01: "SCSI command", 0x03: "login request", 0x04: "text request", 0x05: "Data-Out",
    0x06: "logout request", 0x20: "NOP-In", 0x21: "SCSI response", 0x23: "login response", 0x24: "text response",
    0x25: "Data-In", 0x26: "logout response", 0x31: "ready to transfer", 0x32: "asynchronous message", 0x3F: "reject",
}  # fmt: skip
# and those of commands by the first bytes of their blocks
COMMANDS = {0x00: "TEST UNIT READY", 0x25: "READ CAPACITY(10)", 0x28: "READ(10)"}
LOGIN_RESPONSE, SCSI_COMMAND, SCSI_RESPONSE, DATA_IN = 0x23, 0x01, 0x21, 0x25
MOST_PDUS = 4


def opcode_of(pdu: bytes) -> int:
    return pdu[0] & 0x3F


def pdus_in(data: bytes) -> list[bytes]:
    """The PDUs that begin in a segment which begins with one, each as far as the segment has it."""
    found: list[bytes] = []
    while len(data) >= HEAD and opcode_of(data) in PDUS and len(found) < MOST_PDUS:
        length = int.from_bytes(data[5:8], "big")
        size = HEAD + 4 * data[4] + length + -length % 4
        found.append(data[:size])
        data = data[size:]
    return found


def pdu_text(pdu: bytes) -> str:
    """A PDU in words, with what decides it."""
    opcode = opcode_of(pdu)
    name = PDUS[opcode]
    if opcode == SCSI_COMMAND:
        return f"{name} {COMMANDS.get(pdu[32], f'0x{pdu[32]:02x}')}"
    if opcode == LOGIN_RESPONSE and pdu[36]:
        return f"{name}, class {pdu[36]}, detail {pdu[37]}"
    if opcode == SCSI_RESPONSE or (opcode == DATA_IN and pdu[1] & 1):
        return f"{name}, status {pdu[3]}"
    return name


def keys_of(pdu: bytes) -> dict[bytes, bytes]:
    """The texts of a login's message."""
    length = int.from_bytes(pdu[5:8], "big")
    texts = pdu[HEAD : HEAD + length].split(b"\0")
    return dict(text.split(b"=", 1) for text in texts if b"=" in text)
