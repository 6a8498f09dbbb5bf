#!/usr/bin/env python3
"""Turns lines as '192.0.2.0/24 7' or '2001:db8::/32 7' into lines of `build`. Empty lines and lines after # are skipped."""
import ipaddress
import sys

for line in sys.stdin:
    words = line.split("#")[0].split()
    if words:
        network = ipaddress.ip_network(words[0], strict=False)
        address = network.network_address.packed.hex()
        print(network.version, address, network.prefixlen, int(words[1]))
