"""Captures of packets, as the files of libpcap have them."""

import random
import struct

ETHERNET = 1
IPV4, IPV6, ARP, VLAN = 0x0800, 0x86DD, 0x0806, 0x8100
ICMP, TCP, UDP = 1, 6, 17
PORTS = (53, 53, 123, 5353, 80, 443)


def ethernet(kind, payload):
    return bytes(range(1, 13)) + struct.pack(">H", kind) + payload


def ipv4(protocol, payload, options=b"", fragment=0):
    words = 5 + len(options) // 4
    total = 4 * words + len(payload)
    head = struct.pack(">BBHHHBBH", 0x40 | words, 0, total, 7, fragment, 64, protocol, 0)
    return head + bytes([10, 0, 0, 1, 10, 0, 0, 2]) + options + payload


def ipv6(protocol, payload):
    return struct.pack(">IHBB", 6 << 28, len(payload), protocol, 64) + bytes(32) + payload


def udp(port, payload):
    return struct.pack(">HHHH", 40000, port, 8 + len(payload), 0) + payload


def tcp(port, flags, payload=b""):
    return struct.pack(">HHIIBBHHH", 40000, port, 1, 2, 0x50, flags, 1024, 0, 0) + payload


def arp():
    return ethernet(ARP, struct.pack(">HHBBH", 1, IPV4, 6, 4, 1) + bytes(20))


def packet(chance):
    """A packet of some kind, most often one that a filter for UDP has to look at closely."""
    port, data = chance.choice(PORTS), chance.randbytes(chance.choice((0, 1, 12, 64, 1400)))
    kind = chance.randrange(12)
    if kind < 3:
        return ethernet(IPV4, ipv4(UDP, udp(port, data)))
    if kind == 3:
        return ethernet(IPV4, ipv4(UDP, udp(port, data), options=bytes(4 * chance.randrange(1, 11))))
    if kind == 4:
        # the first of several fragments, or a later one, with or without the flag
        return ethernet(IPV4, ipv4(UDP, udp(port, data), fragment=chance.choice((0x2000, 0x2001, 1, 185, 0x4000))))
    if kind == 5:
        return ethernet(IPV6, ipv6(UDP, udp(port, data)))
    if kind == 6:
        return ethernet(VLAN, struct.pack(">HH", 7, IPV4) + ipv4(UDP, udp(port, data)))
    if kind in (7, 8):
        return ethernet(IPV4, ipv4(TCP, tcp(port, chance.choice((2, 0x12, 0x10, 0x18, 4)), data)))
    if kind == 9:
        return ethernet(IPV4, ipv4(ICMP, struct.pack(">BBHI", 8, 0, 0, 1) + data))
    if kind == 10:
        return arp()
    # one of the first kind with some bytes of its headers changed
    near = bytearray(ethernet(IPV4, ipv4(UDP, udp(53, data))))
    for _ in range(chance.randrange(1, 4)):
        near[chance.randrange(12, 42)] = chance.randrange(256)
    return bytes(near)


def packets(seed, count):
    """So many packets, of which some are cut short on the wire, and some by the capture: each as
    the bytes that were captured and the length that it had."""
    chance = random.Random(seed)
    made = []
    for _ in range(count):
        whole = packet(chance)
        if chance.random() < 0.05:
            whole = whole[: chance.randrange(14, 60)]
        captured = whole
        if chance.random() < 0.05:
            captured = whole[: chance.choice((14, 20, 36, 42, 60, 96))]
        made.append((captured, len(whole)))
    return made


def capture(listed):
    """The bytes of a capture file."""
    head = struct.pack("<IHHiIII", 0xA1B2C3D4, 2, 4, 0, 0, 262144, ETHERNET)
    parts = [head]
    for number, (captured, length) in enumerate(listed):
        parts.append(struct.pack("<IIII", 1_700_000_000 + number, number % 1_000_000, len(captured), length))
        parts.append(captured)
    return b"".join(parts)
