#!/usr/bin/env python3
"""Turns lines of `dump` into lines as '192.0.2.0/24 7' or '2001:db8::/32 7'."""
import ipaddress
import sys

for line in sys.stdin:
    _family, address, length, value = line.split()
    print(f"{ipaddress.ip_address(bytes.fromhex(address))}/{length} {value}")
