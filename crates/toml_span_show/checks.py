"""Further checks of toml_span_show (scripts/runs.py): refused requests for memory, and limits of input and output"""

# texts, and how many of their requests for memory can be refused without effect
HELD = [
    (b" " * 39_999 + b"#", 0),
    (b"# x\n", 0),
    (b"[[a]]\n[a.b]\nx = 1\n[[a]]\n[a.b]\nx = 2\n", 6),
    (b"[[a]]\n[a.b.c]\n[a.b]\nx = 1\n[[a]]\n[a.b]\nx = 2\n", 5),
    (b"a.b.x = 1\n[a.c]\n[a]\nb.y = 2\n", 8),
]


def check(tester):
    def ends(status, wanted, **settings):
        tester.fresh()
        result = tester.go(**settings)
        tester.holds(result.status == status, f"status {result.status}, not {status}")
        tester.holds(result.out + result.err == wanted, f"writes {result.out + result.err}, not {wanted}")

    for text, spared in HELD:
        tester.set_input(text)
        tester.refused(4, 4, spared)
    tester.set_input(b" " * 16_777_216)
    ends(0, b"root table 0..16777216\n")
    with open("/dev/full", "wb") as full:
        ends(3, b"", out=full)
    tester.set_input(b" " * 16_777_216 + b"\xff")
    ends(2, b"error too-long\n")
    tester.input = "."
    ends(3, b"")
