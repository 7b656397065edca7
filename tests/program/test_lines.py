"""How a script is cut into lines, how long it may be, how deep a request may be nested, and when it is answered."""
from __future__ import annotations

import os
import select
import subprocess

import pytest
from program import PROGRAM, run

GET = b'{"get":"totals"}'
TOTALS = b'{"accepted":0,"standing":0,"withdrawn":0}\n'
NOT_JSON = b'{"bad":"NotJson"}\n'
BAD_SHAPE = b'{"bad":"BadShape"}\n'
TOO_LONG = b"thesaurus: fault TooLong\n"
# Lines end with a newline, before which one carriage return is dropped. Lines of blanks and tabs are skipped.
CUTS: dict[bytes, bytes] = {
    b"": b"",
    b"\n": b"",
    b"    \n": b"",
    b" \t \n\n\t": b"",
    b"\r\n \r\n": b"",
    GET: TOTALS,
    GET + b"\n": TOTALS,
    GET + b"\r\n": TOTALS,
    GET + b"\r": TOTALS,
    b"\t" + GET + b"\t": TOTALS,
    b"\n \n" + GET + b"\n\n": TOTALS,
    b"\r": NOT_JSON,
    b"\r\r\n": NOT_JSON,
    b"\x0b\n": NOT_JSON,
    b"\x0c\n": NOT_JSON,
    b"\xc2\xa0\n": NOT_JSON,
    b"\xff\n": NOT_JSON,
    b'{"get":"tot\tals"}\n': NOT_JSON,
    b'{"do":"outside","iri":"http://a\tb"}\n': NOT_JSON,
    b'{"do":"outside","iri":"\xff"}\n': NOT_JSON,
    b"\xef\xbb\xbf" + GET + b"\n": NOT_JSON,
    b'{"get":"totals","\xff":1}\n': NOT_JSON,
    b'{"get":\n"totals"': NOT_JSON + BAD_SHAPE,
}
# A JSON text may be nested 127 deep.
DEPTHS = {127: BAD_SHAPE, 128: NOT_JSON, 200: NOT_JSON}
# A line has at most 1,048,576 bytes, its carriage return among them and its newline not: bytes, how it ends, and
# whether it fits.
LENGTHS = [
    (1_048_576, b"\n", True),
    (1_048_576, b"", True),
    (1_048_575, b"\r\n", True),
    (1_048_577, b"\n", False),
    (1_048_577, b"", False),
    (1_048_576, b"\r\n", False),
]
# A script has at most 1,000,000 lines, blank ones among them.
MOST_LINES = GET + b"\n" * 1_000_000
WHOLES = {
    "a line of blanks": (b" " * 1_048_576, 0, b""),
    "a longer line of blanks": (b" " * 1_048_577, 3, b""),
    "as many lines as may be": (MOST_LINES, 0, TOTALS),
    "one line more": (MOST_LINES + GET, 3, TOTALS),
    "one blank line more": (MOST_LINES + b"\n", 3, TOTALS),
    # (it has more bytes than it may have reads and writes, which are 100,000,000)
    "long lines of blanks": ((b" " * 101 + b"\n") * 999_999 + GET, 0, TOTALS),
}


@pytest.mark.parametrize("script", CUTS, ids=repr)
def test_script_is_cut_into_lines(script: bytes) -> None:
    assert run(["script"], script) == (int(b"bad" in CUTS[script]), CUTS[script], b"")


@pytest.mark.parametrize("depth", DEPTHS)
def test_depth_of_a_request(depth: int) -> None:
    assert run(["script"], b"[" * depth + b"]" * depth) == (1, DEPTHS[depth], b"")
    # An object counts as one of them.
    inside = b"[" * (depth - 1) + b"1" + b"]" * (depth - 1)
    request = b'{"do":"merge","target":1,"source":' + inside + b"}"
    assert run(["script"], request) == (1, DEPTHS[depth], b"")


@pytest.mark.parametrize(("length", "end", "fits"), LENGTHS)
def test_length_of_a_line(length: int, end: bytes, fits: bool) -> None:
    ended = run(["script"], GET + b"\n" + GET.ljust(length) + end)
    assert ended == ((0, 2 * TOTALS, b"") if fits else (3, TOTALS, TOO_LONG))


@pytest.mark.parametrize("name", WHOLES)
def test_length_of_a_script(name: str) -> None:
    script, status, out = WHOLES[name]
    assert run(["script"], script) == (status, out, TOO_LONG if status else b"")


def test_each_line_is_answered_before_the_next_is_there() -> None:
    """Each answer comes by one write."""
    # A pipe that keeps writes apart: each read gives one.
    from_program, to_test = os.pipe2(os.O_DIRECT)
    with subprocess.Popen([PROGRAM, "script"], stdin=subprocess.PIPE, stdout=to_test, bufsize=0) as ran:
        assert ran.stdin
        os.close(to_test)
        answers = []
        for line in (GET + b"\n", b"\n" + GET + b"\r\n", GET + b"\n"):
            ran.stdin.write(line)
            is_ready = select.select([from_program], [], [], 20)[0]
            answers.append(os.read(from_program, 4096) if is_ready else b"nothing")
        ran.stdin.close()
    os.close(from_program)
    assert answers == [TOTALS] * 3
