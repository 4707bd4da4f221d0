"""Clients of other machines: whoever has no good certificate isn't let in, and whoever has is known by its name."""

from __future__ import annotations

import os
import shutil
import signal
import socket
import ssl
import subprocess
import sys
import time
import unittest

from .support import HERE, IXC, TIMEOUT, Client, Front, Manager, Place, listens, metric, records, wait_until
from .test_monitoring import free_port

AUTHORITY = """
[ca]
default_ca = it
[it]
dir = .
database = index
new_certs_dir = .
serial = serial
default_md = sha256
default_crl_days = 30
policy = any
unique_subject = no
[any]
commonName = supplied
[req]
distinguished_name = names
[names]
[v3_ca]
basicConstraints = critical,CA:true
"""


class Authority:
    """Signs certificates and revokes them, with the command openssl."""

    def __init__(self, folder: str) -> None:
        self.folder = folder
        os.mkdir(folder)
        for name, text in (("conf", AUTHORITY), ("index", ""), ("serial", "01\n")):
            with open(f"{folder}/{name}", "w") as file:
                file.write(text)
        self.run("req", "-x509", *self.key("ca"), "-subj", "/CN=authority", "-days", "30", "-out", "ca.pem",
                 "-extensions", "v3_ca", "-config", "conf")
        self.revoke_none()

    def run(self, *words: str) -> None:
        """Runs openssl."""
        subprocess.run(["openssl", *words], cwd=self.folder, check=True, stdin=subprocess.DEVNULL,
                       stdout=subprocess.DEVNULL, stderr=subprocess.DEVNULL)

    def key(self, name: str) -> tuple[str, ...]:
        """A new key of elliptic curves, which costs little."""
        return ("-newkey", "ec", "-pkeyopt", "ec_paramgen_curve:prime256v1", "-nodes", "-keyout", f"{name}.key")

    def sign(self, name: str, subject: str, *times: str) -> None:
        """A certificate for this subject."""
        self.run("req", "-new", *self.key(name), "-subj", subject, "-config", "conf", "-out", f"{name}.req")
        self.run("ca", "-batch", "-config", "conf", "-cert", "ca.pem", "-keyfile", "ca.key", "-in", f"{name}.req",
                 "-out", f"{name}.pem", "-notext", *(times or ("-days", "30")))

    def revoke_none(self) -> None:
        """Tells which are revoked: none of late."""
        self.run("ca", "-config", "conf", "-cert", "ca.pem", "-keyfile", "ca.key", "-gencrl", "-out", "crl.pem")

    def revoke(self, name: str) -> None:
        """Revokes one."""
        self.run("ca", "-config", "conf", "-cert", "ca.pem", "-keyfile", "ca.key", "-revoke", f"{name}.pem")
        self.revoke_none()


class TlsClient(Client):
    """A client over TLS; without a name it shows no certificate."""

    def __init__(self, authority: str, port: int, name: str | None, most: ssl.TLSVersion | None = None) -> None:
        context = ssl.create_default_context(cafile=f"{authority}/ca.pem")
        if most is not None:
            context.maximum_version = most
        context.check_hostname = False
        if name is not None:
            context.load_cert_chain(f"{authority}/{name}.pem", f"{authority}/{name}.key")
        raw = socket.create_connection(("127.0.0.1", port), timeout=30)
        try:
            self.sock = context.wrap_socket(raw)
        except OSError:
            raw.close()
            raise
        self.file = self.sock.makefile("rb")


@unittest.skipUnless(shutil.which("openssl"), "openssl makes the certificates")
class Tls(Place):
    authority: Authority
    run_of: Manager
    through: Front

    def setUp(self) -> None:
        super().setUp()
        self.at = f"{self.folder}/authority"
        self.authority = Authority(self.at)
        for name in ("server", "lab", "ward"):
            self.authority.sign(name, f"/CN={name}.example")
        with open(f"{self.folder}/policy", "w") as file:
            file.write("cert lab.example requests ask,confirm,cancel,status actions do($x)\n"
                       "cert ward.example requests status,ask,confirm,cancel actions *\nanybody requests all actions *\n")
        self.port = free_port()
        self.run_of = self.manager()
        self.through = self.paged(
            self.run_of.path, "--tls", f"127.0.0.1:{self.port}", "--tls-cert", f"{self.at}/server.pem", "--tls-key",
            f"{self.at}/server.key", "--tls-ca", f"{self.at}/ca.pem", "--tls-crl", f"{self.at}/crl.pem",
            "--policy", f"{self.folder}/policy")

    def of(self, name: str | None, most: ssl.TLSVersion | None = None) -> TlsClient:
        client = TlsClient(self.at, self.port, name, most)
        self.addCleanup(client.close)
        return client

    def refused(self, name: str | None, why: str, most: ssl.TLSVersion | None = None) -> None:
        """Whoever shows this certificate isn't let in, and the log says why."""
        try:
            self.assertIsNone(self.of(name, most).request("status"))
        except OSError:
            pass
        records(self.folder, lambda found: any(
            it.get("event") == "turned away" and why in it["limit"] and it["address"] == "127.0.0.1" for it in found))

    def test_the_name_in_the_certificate_is_who_it_is(self) -> None:
        lab, ward = self.of("lab"), self.of("ward")
        self.assertEqual(lab.sock.version(), "TLSv1.3")  # type: ignore[attr-defined]
        self.assertTrue(lab.told("status").startswith("status "))
        self.assertEqual(lab.request("may do(a)"), "yes")
        ticket = lab.ticket("do(a)")
        self.assertEqual(ward.request(f"cancel {ticket}"), "refused 30 no such ticket")
        with Client(self.through.path) as here:
            self.assertEqual(here.request(f"cancel {ticket}"), "refused 30 no such ticket")
        self.assertEqual(lab.request(f"confirm {ticket}"), "confirmed 1")
        lab.send("x" * 5000, "status")
        self.assertEqual(lab.reply(), "refused 10 line too long")
        self.assertTrue((lab.reply() or "").startswith("status "))
        found = records(self.folder, lambda found: any(it.get("reply") == "confirmed 1" for it in found))
        told = next(it for it in found if it.get("reply") == "confirmed 1")
        self.assertEqual(told["cert"], "lab.example")
        self.assertTrue(told["address"].startswith("127.0.0.1:"))
        lab.close()
        ticket = ward.ticket("do(b)", 60000)
        ward.send(f"confirm {ticket}")
        ward.close()
        with Client(self.through.path) as here:
            wait_until(lambda: here.request("log 2") == "entry 2 do(b)", "what was left behind counts")

    def test_who_is_not_let_in(self) -> None:
        self.authority.sign("old", "/CN=old.example", "-startdate", "20200101000000Z", "-enddate", "20200201000000Z")
        self.authority.sign("blank", "/CN=two words")
        self.refused(None, "")
        self.refused("old", "expired")
        self.refused("blank", "no name")
        self.refused("lab", "", ssl.TLSVersion.TLSv1_2)
        with socket.create_connection(("127.0.0.1", self.port)) as plain:
            plain.sendall(b"status\n")
            plain.settimeout(30)
            self.assertNotIn(b"status", plain.recv(4096))
        foreign = Authority(f"{self.folder}/foreign")
        foreign.sign("lab", "/CN=lab.example")
        shutil.copy(f"{self.folder}/foreign/lab.pem", f"{self.at}/foreign.pem")
        shutil.copy(f"{self.folder}/foreign/lab.key", f"{self.at}/foreign.key")
        self.refused("foreign", "")
        self.assertTrue(self.of("lab").told("status").startswith("status "))

    @unittest.skipUnless(shutil.which("stunnel"), "stunnel isn't installed")
    def test_a_client_of_a_unix_socket_through_stunnel(self) -> None:
        """As docs/engines.md shows it."""
        with open(f"{self.folder}/stunnel.conf", "w") as file:
            file.write(f"foreground = yes\npid =\n[ixm]\nclient = yes\naccept = {self.folder}/lab\n"
                       f"connect = 127.0.0.1:{self.port}\ncert = {self.at}/lab.pem\nkey = {self.at}/lab.key\n"
                       f"CAfile = {self.at}/ca.pem\nverifyChain = yes\n")
        process = subprocess.Popen(["stunnel", f"{self.folder}/stunnel.conf"], stderr=subprocess.DEVNULL)
        try:
            wait_until(lambda: listens(f"{self.folder}/lab"), "stunnel listens")
            with Client(f"{self.folder}/lab") as client:
                ticket = client.ticket("do(a)")
                self.assertEqual(client.request(f"confirm {ticket}"), "confirmed 1")
            if IXC:
                words = [IXC, f"{self.folder}/lab", "do(b)", "60000"]
                ran = subprocess.run(words, stdout=subprocess.PIPE, text=True, timeout=TIMEOUT)
                self.assertEqual((ran.stdout, ran.returncode), ("done 2\n", 0))
        finally:
            process.kill()
            process.wait()
        found = records(self.folder, lambda found: any(it.get("reply") == "confirmed 1" for it in found))
        self.assertEqual({it["cert"] for it in found if "reply" in it}, {"lab.example"})

    def test_a_fault_at_a_client_costs_it_its_connection(self) -> None:
        """Each client has a task of its own, and what raises in one is told."""
        self.through.stop()
        self.through.words[:1] = [f"{HERE}/faulty", "tls.name_in", "ValueError", f"{self.folder}/now"]
        self.through.start()
        ward = self.of("ward")
        self.assertTrue(ward.told("status").startswith("status "))
        with open(f"{self.folder}/now", "w"):
            pass
        try:
            self.assertIsNone(self.of("lab").request("status"))
        except OSError:
            pass
        records(self.folder, lambda found: any(it.get("event") == "fault passed over" for it in found))
        for client in (ward, self.of("lab")):
            self.assertTrue(client.told("status").startswith("status "))

    def test_one_that_is_revoked_is_cut_off(self) -> None:
        lab, ward = self.of("lab"), self.of("ward")
        self.assertTrue(lab.told("status").startswith("status "))
        os.kill(self.through.pid, signal.SIGHUP)  # nothing has changed
        found = records(self.folder, lambda found: any(it.get("event") == "certificates read" for it in found))
        self.assertEqual([it["cut_off"] for it in found if it.get("event") == "certificates read"], ["none"])
        self.assertTrue(lab.told("status").startswith("status "))
        self.authority.revoke("lab")
        os.kill(self.through.pid, signal.SIGHUP)
        self.assertIsNone(lab.reply())
        self.assertIsNone(ward.reply())
        self.refused("lab", "revoked")
        self.assertTrue(self.of("ward").told("status").startswith("status "))

    def test_one_that_expires_is_cut_off(self) -> None:
        soon = time.gmtime(time.time() + 6)
        self.authority.sign("soon", "/CN=soon.example", "-startdate", "20200101000000Z", "-enddate",
                            time.strftime("%Y%m%d%H%M%SZ", soon))
        client = self.of("soon")
        self.assertEqual(client.request("may do(a)"), "yes")
        self.assertIsNone(client.reply())


# Sends each line that it reads over a TLS connection, and puts its reply.
ELSEWHERE = """
import socket, ssl, sys
at, host, name = sys.argv[1:]
context = ssl.create_default_context(cafile=f"{at}/ca.pem")
context.check_hostname = False
context.load_cert_chain(f"{at}/{name}.pem", f"{at}/{name}.key")
with context.wrap_socket(socket.create_connection((host, 7443), timeout=30)) as sock:
    replies = sock.makefile("r")
    for line in sys.stdin:
        sock.sendall(line.encode())
        print(replies.readline(), end="", flush=True)
"""


def can_have_networks() -> bool:
    """Whether this process may make networks of its own."""
    if os.getuid() != 0 or shutil.which("ip") is None or shutil.which("openssl") is None:
        return False
    name = f"ixm-{os.getpid()}"
    quiet = {"stdout": subprocess.DEVNULL, "stderr": subprocess.DEVNULL}
    made = subprocess.run(["ip", "netns", "add", name], **quiet).returncode == 0  # type: ignore[call-overload]
    if made:
        subprocess.run(["ip", "netns", "del", name], check=True)
    return bool(made)


class OverNetwork(Place):
    """The front and its client are on two machines, as far as the network goes: two namespaces and a link between."""

    def setUp(self) -> None:
        super().setUp()
        if not can_have_networks():
            self.skipTest("no networks can be made here")
        self.house, self.lab = f"ixm-house-{os.getpid()}", f"ixm-lab-{os.getpid()}"
        for network in (self.house, self.lab):
            self.ip("netns", "add", network)
            self.addCleanup(self.ip, "netns", "del", network)
        self.ip("link", "add", "to_lab", "netns", self.house, "type", "veth", "peer", "name", "to_house", "netns", self.lab)
        for network, link, address in ((self.house, "to_lab", "10.213.0.1/24"), (self.lab, "to_house", "10.213.0.2/24")):
            self.ip("-n", network, "addr", "add", address, "dev", link)
            self.ip("-n", network, "link", "set", link, "up")

    def ip(self, *words: str) -> None:
        subprocess.run(["ip", *words], check=True)

    def test_a_client_on_another_machine(self) -> None:
        """It works, and where its link goes silent it is gone soon: its place is free, and its grant is given back."""
        at = f"{self.folder}/authority"
        authority = Authority(at)
        for name in ("server", "lab"):
            authority.sign(name, f"/CN={name}.example")
        front = Front(self.folder, self.manager().path, "--page", f"{self.folder}/page", "--silent-time", "3",
                      "--cancel-unspent", "--tls", "10.213.0.1:7443", "--tls-cert", f"{at}/server.pem", "--tls-key",
                      f"{at}/server.key", "--tls-ca", f"{at}/ca.pem")
        front.words[:0] = ["ip", "netns", "exec", self.house]
        self.addCleanup(front.stop, signal.SIGKILL)
        front.start()
        words = ["ip", "netns", "exec", self.lab, sys.executable, "-c", ELSEWHERE, at, "10.213.0.1", "lab"]
        process = subprocess.Popen(words, stdin=subprocess.PIPE, stdout=subprocess.PIPE, text=True, bufsize=1)
        assert process.stdin is not None and process.stdout is not None
        try:
            process.stdin.write("ask do(a) 86400000\n")
            ticket = process.stdout.readline().split()[1]
            process.stdin.write(f"confirm {ticket}\n")
            self.assertEqual(process.stdout.readline(), "confirmed 1\n")
            process.stdin.write("ask do(b) 86400000\n")
            self.assertTrue(process.stdout.readline().startswith("granted "))
            self.ip("-n", self.lab, "link", "set", "to_house", "down")
            wait_until(lambda: metric(self.folder, 'ixm_front_closed_total{cause="gone"}') == 1, "it is gone")
            confirm = f"confirm {ticket}"
            found = records(self.folder, lambda found: any(it.get("request") == confirm for it in found))
            told = next(it for it in found if it.get("request") == confirm)
            self.assertEqual((told["cert"], told["address"].partition(":")[0]), ("lab.example", "10.213.0.2"))
            with Client(front.path) as here:
                self.assertTrue(here.told("ask do(c) 1000").startswith("granted "))
        finally:
            process.kill()
            process.communicate()
