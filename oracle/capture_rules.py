"""Document 02's sentences on capture files, R-12 and R-13, and nothing else: what converting and merging answer and leave in the output buffer.

A file is read with struct, record by record; no line of this follows the product's code or definitions."""
import struct


class No(Exception):
    """A question answered no, by its number."""


def records_of(data, growing):
    """The header's fields and the records of a capture, or 17. `growing`: records of link type 189 are to grow by 16."""
    if len(data) < 24:
        raise No(17)
    magic, major, minor, zone, accuracy, snap, link = struct.unpack_from('<IHHIIII', data)
    if magic != 0xA1B2C3D4 or (major, minor) != (2, 4) or link not in (189, 220):
        raise No(17)
    header, records, at = (48 if link == 189 else 64), [], 24
    while at < len(data):
        if len(data) - at < 16 + header:
            raise No(17)
        seconds, microseconds, captured, original = struct.unpack_from('<IIII', data, at)
        delivered, = struct.unpack_from('<I', data, at + 16 + 36)
        if captured != header + delivered or len(data) - at < 16 + captured or original < captured:
            raise No(17)
        if growing and link == 189 and original + 16 >= 2 ** 32:
            raise No(17)
        body = data[at + 16:at + 16 + captured]
        records.append((seconds, microseconds, original, body[:48], body[48:header], body[header:]))
        at += 16 + captured
    return (zone, accuracy, snap, link), records


def file_of(zone, accuracy, snap, link, records):
    """The bytes of a capture."""
    parts = [struct.pack('<IHHIIII', 0xA1B2C3D4, 2, 4, zone, accuracy, snap, link)]
    for seconds, microseconds, original, usbmon, added, payload in records:
        parts.append(struct.pack('<IIII', seconds, microseconds, len(usbmon) + len(added) + len(payload), original))
        parts += [usbmon, added, payload]
    return b''.join(parts)


def converted(data):
    """The converted file, or 17 or 18."""
    (zone, accuracy, snap, link), records = records_of(data, True)
    for _, _, _, usbmon, added, _ in records:
        if usbmon[9] == 0 or any(added):
            raise No(18)
    if link == 189:
        moved = [(s, u, original + 16, usbmon, bytes(16), payload) for s, u, original, usbmon, _, payload in records]
        return file_of(zone, accuracy, snap, 220, moved)
    moved = [(s, u, original - 16, usbmon, b'', payload) for s, u, original, usbmon, _, payload in records]
    return file_of(zone, accuracy, snap, 189, moved)


def merged(first, second):
    """Two captures made one, or 17, 19 or 20."""
    (zone, accuracy, snap, link), ours = records_of(first, False)
    (_, _, other_snap, other_link), theirs = records_of(second, False)
    if link != other_link:
        raise No(19)
    for records in (ours, theirs):
        times = [record[:2] for record in records]
        if times != sorted(times):
            raise No(20)
    # sorted keeps the order of what is equal: the first file's records stand in front
    return file_of(zone, accuracy, max(snap, other_snap), link, sorted(ours + theirs, key=lambda record: record[:2]))


def answer(make, room):
    """The number, the length that is measured (0 where there is none) and the output buffer of `room` bytes afterwards."""
    unchanged = b'\xaa' * room
    try:
        made = make()
    except No as no:
        return no.args[0], 0, unchanged
    if len(made) > room:
        return 14, len(made), unchanged
    return 0, len(made), made + unchanged[len(made):]
