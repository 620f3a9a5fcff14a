"""Writes documents of 1 KB, 20 KB and 1 MB to measure with: documents.py FOLDER"""

import os
import sys


def lock(size):
    """Returns packages with their checksums and dependencies, as in a lock file."""
    text, at = ["version = 3\n"], 0
    while len(text) * 215 < size:
        names = ", ".join(f'"part-{(at * 7 + step) % 501} 1.{step}.0"' for step in range(at % 5))
        text.append(
            f'\n[[package]]\nname = "package-{at}"\nversion = "{at % 7}.{at % 31}.{at % 11}"\n'
            f'source = "registry+https://example.org/index"\nchecksum = "{at * 2654435761 % (1 << 64):064x}"\n'
            f"dependencies = [{names}]\n"
        )
        at += 1
    return "".join(text)


def mixed(size):
    """Returns tables with values of each kind."""
    text, at = ['title = "mixed"\n'], 0
    while len(text) * 345 < size:
        text.append(
            f'\n[part-{at}]\nname = "caf\u00e9 {at}"\nsummary = "Says \\"hello\\" in {at % 7} lines\\nand a tab\\t"\n'
            f"port = {at % 65536}\nratio = {at % 97}.{at % 89}e-3\nbig = 1_000_{at % 1000:03}\n"
            f"on = {'true' if at % 2 else 'false'}\nwhen = 2021-03-{at % 28 + 1:02}T07:32:00Z\n"
            f'path = "/usr/share/part/{at}/data"\ncontact = "someone-{at}@example.org"\n'
            f"list = [{at}, {at + 1}, {at + 2}, {at + 3}]\npoint = {{ x = {at}, y = -{at} }}\n"
            f"names = ['a{at}', 'b{at}', 'c{at}']\n'quoted key' = '''\nsome lines\nof plain text'''\n"
        )
        at += 1
    return "".join(text)


def main():
    for name, make in (("lock", lock), ("mixed", mixed)):
        for label, size in (("1k", 1_000), ("20k", 20_000), ("1m", 1_000_000)):
            with open(os.path.join(sys.argv[1], f"{name}{label}.toml"), "w", encoding="utf-8") as file:
                file.write(make(size))


main()
