"""The connection of a fetch by HTTP: whole outputs, worked by hand as those of web_response_rows.py."""

from __future__ import annotations

from ipaddress import IPv4Address

from shared.causes import OK, Cause, Code
from shared.records import Off, Received, Sent, Step, Tick, Try
from shared.wire import PROTOCOL_ICMP, PROTOCOL_TCP, Station, checksum, packet_frame, segment
from tests import made
from tests.script_rows import FIRST, UNFINISHED, Row, steps
from tests.web_fetches import ASKED, ELF, FETCH, LENGTH, QUARTER, WIRE, asks, boots, fails, fetches, length_of, refused
from tests.web_records import ACK, RST, SYN, Connection, Segment, request

TIMED_OUT, NO_ANSWER = Cause(Code.TIMED_OUT, 6), Cause(Code.TIMED_OUT, 4)
NO_ROUTE = Cause(Code.NO_ROUTE, int(IPv4Address("11.0.0.1")))
# the tries of 63 TICKs of 250 ms, by their steps
TRIES = {2: 2, 4: 3, 8: 4, 16: 5, 32: 6}


def silent() -> Row:
    """Nobody answers: six tries, and the end after 15,750 ms."""
    inputs = [made.start(FIRST + FETCH + b"\n"), *[QUARTER] * 63]
    each = [WIRE.passed(*(WIRE.looks(TRIES[step]) if step in TRIES else [])) for step in range(2, 64)]
    return Row(inputs, [*asks(WIRE), *steps(2, *each, WIRE.passed(over=TIMED_OUT)), *fails(TIMED_OUT)])


def silent_to_its_syn() -> Row:
    """The server's hardware address is known, and its port is silent."""
    waits = (500, 1_000, 2_000, 4_000)
    inputs = [made.start(FIRST + FETCH + b"\n"), made.found(), QUARTER, *map(Tick, waits), Tick(8_000)]
    tries = [WIRE.passed(*WIRE.syn(attempt)) for attempt in range(2, 7)]
    return Row(inputs, [*asks(WIRE), *steps(2, [], *tries, WIRE.passed(over=TIMED_OUT)), *fails(TIMED_OUT)])


def probed() -> Row:
    """All was acknowledged, and nothing more comes: four probes, and the end 75,000 ms after the last segment."""
    pause = Tick(15_000)
    probe = lambda attempt: WIRE.passed(Try(0, attempt), WIRE.sent(ACK, LENGTH - 1, 0))  # noqa: E731
    received = [WIRE.brings(0, b"", ACK, LENGTH), *[pause] * 5]
    each = [WIRE.came([]), *(probe(attempt) for attempt in range(1, 5)), WIRE.passed(over=NO_ANSWER)]
    return fetches(received, *each, end=fails(NO_ANSWER))


def request_again() -> Row:
    """The request isn't acknowledged, and sent again; then in part."""
    half = 40
    received = [QUARTER, WIRE.brings(0, b"", ACK, half), WIRE.brings(0, b"", ACK, LENGTH), Off()]
    each = [
        WIRE.passed(*WIRE.text(ASKED, 2)),
        WIRE.came(WIRE.text(ASKED[half:], 1, half)),
        WIRE.came([]),
        WIRE.shut(WIRE.resets(0, LENGTH)),
    ]
    return fetches(received, *each, end=[UNFINISHED])


def small_segments() -> Row:
    """The server takes 50 bytes at a time: the request goes in two segments."""
    wire = WIRE
    inputs = [
        made.start(FIRST + FETCH + b"\n"), made.found(), QUARTER,
        wire.answers(bytes.fromhex("02040032")), wire.brings(0, b"", ACK, 50), wire.brings(0, b"", ACK, LENGTH),
    ]
    each = [
        [], wire.passed(*wire.syn(2)),
        wire.came([wire.acks(0), *wire.text(ASKED[:50])]),
        wire.came(wire.text(ASKED[50:], 1, 50)),
        wire.came([]),
    ]
    return Row(inputs, [*asks(wire), *steps(2, *each), *wire.shut(wire.resets(0, LENGTH)), UNFINISHED])


def while_asking() -> Row:
    """Before it is established: a wrong acknowledgement is reset, a reset with it passed over, a SYN alone too."""
    wire = WIRE
    wrong = wire.ours + 7
    received = [
        wire.received(Segment(9, wrong, SYN | ACK)),
        wire.received(Segment(9, wrong, RST | ACK)),
        wire.received(Segment(9, 0, SYN)),
        wire.received(Segment(9, wire.ours + 1, RST | ACK)),
    ]
    reset = Sent(wire.frame_of(Segment(wrong, 0, RST, 0)))
    cause = refused(7, 65_535)
    inputs = [made.start(FIRST + FETCH + b"\n"), made.found(), QUARTER, *received]
    each = [[], wire.passed(*wire.syn(2)), wire.came([reset]), wire.came([]), wire.came([]), wire.came([], over=cause)]
    return Row(inputs, [*asks(wire), *steps(2, *each), *fails(cause)])


def stray_segments() -> Row:
    """From another port or host a segment is dropped, and so is an ICMP message; to a port that nobody has it is reset."""
    far = Station(bytes.fromhex("525400000003"), IPv4Address("10.0.0.3"))
    stray = Segment(1_000, 2_000, ACK, 0, b"x")
    unbound = WIRE.received(stray, own=50_000)
    numbers = segment(made.CLIENT.ip, made.SERVER.ip, (50_000, 80), (2_000, 0), RST)
    reset = Sent(packet_frame(made.CLIENT, made.SERVER, PROTOCOL_TCP, numbers))
    # that the port is unreachable (RFC 792)
    unreachable = b"\3\3\0\0\0\0\0\0" + WIRE.frame_of(Segment(1, 1, ACK))[14:42]
    message = unreachable[:2] + checksum(unreachable).to_bytes(2, "big") + unreachable[4:]
    icmp = Received(packet_frame(made.SERVER, made.CLIENT, PROTOCOL_ICMP, message))
    received = [WIRE.received(stray, port=81), WIRE.received(stray, sender=far), icmp, unbound, Off()]
    each = [[], [], [], [reset], WIRE.shut(WIRE.resets(0, LENGTH))]
    return fetches(received, *each, end=[UNFINISHED])


def beside_another_port() -> Row:
    """A segment of the server's from another port is dropped, and the response is taken."""
    stream = length_of(ELF) + ELF
    foreign = WIRE.received(Segment(WIRE.theirs + 1, WIRE.ours + 1, ACK, body=b"HTTP/1.1 404 No\r\n\r\n"), port=81)
    decided = WIRE.decides(OK, WIRE.resets(len(stream), LENGTH), gives=True)
    last = WIRE.came(WIRE.advances(len(stream), place=LENGTH), decided, ended=OK)
    return fetches([foreign, WIRE.brings(0, stream, ACK, LENGTH)], [], last, end=boots())


def resets_in_the_window() -> Row:
    """A reset in the window is acknowledged, one outside is dropped, one at the next place ends it."""
    at = lambda place: WIRE.received(Segment(WIRE.theirs + 1 + place, 0, RST))  # noqa: E731
    cause = refused(8, 65_535)
    each = [WIRE.came([WIRE.acks(0, LENGTH)]), WIRE.came([]), WIRE.came([]), WIRE.came([], over=cause)]
    return fetches([at(65_534), at(65_535), at(-1), at(0)], *each, end=fails(cause))


def off_while_asking() -> Row:
    """The power is switched off before the server has answered."""
    closing = Sent(WIRE.frame_of(Segment(WIRE.ours + 1, 0, RST | ACK, 0)))
    inputs = [made.start(FIRST + FETCH + b"\n"), made.found(), QUARTER, Off()]
    each = [[], WIRE.passed(*WIRE.syn(2)), WIRE.shut(closing)]
    return Row(inputs, [*asks(WIRE), *steps(2, *each), UNFINISHED])


def off_within_a_body() -> Row:
    """The power is switched off while a body comes: the connection is reset."""
    begun = length_of(ELF) + ELF[:5]
    each = [WIRE.came(WIRE.advances(len(begun), place=LENGTH), WIRE.gives()), WIRE.shut(WIRE.resets(len(begun), LENGTH))]
    return fetches([WIRE.brings(0, begun, ACK, LENGTH), Off()], *each, end=[UNFINISHED])


def no_way() -> Row:
    """There is no way to the server."""
    uri = b"http://11.0.0.1:8080/x?y=1"
    far = Station(b"", IPv4Address("11.0.0.1"))
    wire = Connection(uri, server=far, port=8_080)
    begins = [Step(1), made.enter(), made.command(b"imgfetch " + uri), *wire.turned_back(NO_ROUTE)]
    return Row([made.start(FIRST + b"imgfetch " + uri + b"\n")], [*begins, *fails(NO_ROUTE)])


def other_port() -> Row:
    """Another port stands in the request, and the query does; the fragment doesn't."""
    uri = b"http://10.0.0.1:8080/x?y=1"
    wire, text = Connection(uri, port=8_080), request(b"/x?y=1", b"10.0.0.1:8080")
    stream = length_of(ELF) + ELF
    decided = wire.decides(OK, wire.resets(len(stream), len(text)), gives=True)
    last = wire.came(wire.advances(len(stream), place=len(text)), decided, ended=OK)
    words = b"imgexec " + uri + b"#z"
    received = [wire.brings(0, stream, ACK, len(text))]
    return fetches(received, last, end=boots(name=b"x"), words=words, wire=wire, text=text)


STREAM_ROWS: dict[str, Row] = {
    "silent": silent(),
    "silent_to_its_syn": silent_to_its_syn(),
    "probed": probed(),
    "request_again": request_again(),
    "small_segments": small_segments(),
    "while_asking": while_asking(),
    "stray_segments": stray_segments(),
    "beside_another_port": beside_another_port(),
    "resets_in_the_window": resets_in_the_window(),
    "off_while_asking": off_while_asking(),
    "off_within_a_body": off_within_a_body(),
    "no_way": no_way(),
    "other_port": other_port(),
}
