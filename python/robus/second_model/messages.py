"""Messages as bytes."""
from __future__ import annotations

from .bus import Bus
from .names import FAULT_TAG, Message, SYNC_TAG, WORD_TAG


def spell(bus: Bus, tag: int, frame: int, slot: int, stage: int, value: int = 0) -> bytes:
    """The bytes of a message, 11 in version 1 and 12 in version 2."""
    text = bytes([tag]) + (frame % 65536).to_bytes(2) + slot.to_bytes(2)
    text += bytes([stage]) + value.to_bytes(4)
    if bus.version == 2:
        text += bytes([bus.number])
    return text + bytes([xor_of(text)])


def xor_of(text: bytes) -> int:
    """The exclusive or of all bytes."""
    check = 0
    for byte in text:
        check ^= byte
    return check


def read_message(bus: Bus, text: bytes) -> Message | None:
    """(tag, frame, slot, stage, value), or nothing if the bytes spell no message of this bus."""
    if len(text) != 10 + bus.version or text[-1] != xor_of(text[:-1]):
        return None
    if bus.version == 2 and text[10] != bus.number:
        return None
    tag, stage, value = text[0], text[5], int.from_bytes(text[6:10])
    if tag not in (WORD_TAG, FAULT_TAG, SYNC_TAG) or stage not in (1, 2, 3):
        return None
    if tag != WORD_TAG and value:
        return None
    return tag, int.from_bytes(text[1:3]), int.from_bytes(text[3:5]), stage, value
