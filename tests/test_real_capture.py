"""`boot.py` over a capture of real servers: dnsmasq leases, tftpd-hpa serves, tcpdump captures on the servers' side."""

from __future__ import annotations

import subprocess
import sys
import tempfile
import time
import unittest
from contextlib import ExitStack
from ipaddress import IPv4Address
from pathlib import Path

from boot import is_built
from shared.frames import ends_of, packet_of
from shared.namespaces import SERVER_ADDRESS, Network, missing, network
from shared.servers import Leases, dnsmasq
from shared.wire import Station, arp_reply, tftp_ack, tftp_request, udp_frame
from shared.wire_dhcp import Asker
from tests import made, test_servers
from tests.test_boot import Launched

WHY = missing("dnsmasq", "tcpdump", "in.tftpd") or (None if is_built() else "the program isn't built")
LEASES = Leases(test_servers.SERVER + 99, test_servers.SERVER + 109, IPv4Address("255.255.255.0"), "kernel")
ASKER, OWN = Asker(bytes.fromhex("525400123456"), 0x12345678), 2_070


def serves(joined: Network) -> bool:
    """Whether a socket of the servers' side is bound to the port of TFTP."""
    words = joined.in_server("cat", "/proc/net/udp")
    lines = subprocess.run(words, capture_output=True, text=True, check=True).stdout.splitlines()
    return any(line.split()[1].endswith(":0045") for line in lines[1:])


class Firmware:
    """Takes a lease, asks for the file, and acknowledges each block."""

    def __init__(self, wire: test_servers.Wire) -> None:
        self.wire, self.calls = wire, test_servers.Dnsmasq()
        self.calls.wire = wire

    def boot(self) -> None:
        client = self.calls.lease(ASKER)
        server = self.calls.found(client)
        self.wire.send(udp_frame(client, server, (OWN, 69), tftp_request(b"kernel")))
        self.acknowledge(client, server)

    def acknowledge(self, client: Station, server: Station) -> None:
        block = -1
        while block < 1:
            frame = self.wire.receive(lambda one: one[12:14] == b"\x08\x06" or test_servers.datagram(one, OWN) is not None)
            if frame[12:14] == b"\x08\x06":
                self.wire.send(arp_reply(client, server))
                continue
            block += 1
            ports = (OWN, ends_of(packet_of(frame)).source_port)
            self.wire.send(udp_frame(client, server, ports, tftp_ack(block)))


@unittest.skipUnless(WHY is None, f"a real capture: {WHY}")
class RealCapture(Launched):
    def servers(self, stack: ExitStack, joined: Network, root: Path, capture: Path) -> None:
        """The capture begins first, and then the servers."""
        for words in (
            ("tcpdump", "--immediate-mode", "-U", "-i", joined.server_device, "-w", str(capture), "not", "ip6"),
            ("in.tftpd", "-L", "-4", "--address", f"{SERVER_ADDRESS}:69", "-s", str(root)),
        ):
            process = subprocess.Popen(joined.in_server(*words), stderr=subprocess.DEVNULL)
            stack.callback(process.wait, test_servers.MOST_SECONDS)
            stack.callback(process.terminate)
        stack.enter_context(dnsmasq(joined, LEASES))
        until = time.monotonic() + test_servers.MOST_SECONDS
        while not (capture.exists() and capture.stat().st_size and serves(joined)) and time.monotonic() < until:
            time.sleep(0.05)

    def capture(self, folder: Path) -> Path:
        """What tcpdump captures of a lease and a fetch."""
        capture, root = folder / "real.pcap", folder / "root"
        root.mkdir()
        (root / "kernel").write_bytes(made.KERNEL)
        for path in (folder, root):
            path.chmod(0o755)
        folder.chmod(0o777)
        with ExitStack() as stack:
            joined = stack.enter_context(network())
            self.servers(stack, joined, root, capture)
            words = [sys.executable, "-B", "-m", "tests.wire_pipe", joined.client_device]
            wire = test_servers.Wire(joined.in_client(*words))
            stack.callback(wire.close)
            Firmware(wire).boot()
            time.sleep(0.5)
        return capture

    def test_it_boots_again(self) -> None:
        with tempfile.TemporaryDirectory() as name:
            self.put("real.pcap", self.capture(Path(name)).read_bytes())
        for words, said in (("", "got the transaction number 0x2fef003e, by which this client asks, in place of 0x12345678"),
                            ("--static", "--ip 10.77.0.")):
            printed, lines, status = self.ends(f"tools/boot.py real.pcap {words}")
            self.assertEqual(status, 0, lines)
            self.assertIn("The boot succeeded: kernel kernel (516 bytes) from 10.77.0.1, in ", printed)
            self.assertIn(said, lines)


if __name__ == "__main__":
    unittest.main()
