"""What operators do to a site in etcd: a store that is away, or fills and has room again, a backup that is restored, a store that has lost a write, a member of another cluster, certificates, another configuration, a higher limit
of journals, a site that is made twice or was never made, and a second process on one machine. One member on 127.0.0.1, and `polydbd` with one site.
"""

import os
import re
import shutil
import signal
import subprocess
import sys
import tempfile
import time
from pathlib import Path

HERE = Path(__file__).resolve().parent
sys.path[:0] = [str(HERE.parent), str(HERE)]

import etcd_store  # noqa: E402
import nodes  # noqa: E402

CONFIG = "sites 1\nitem a 0 100\nitem b 0 50\n"
QUOTA = 16 << 20
QUESTION, SLACK = 3.0, 10.0  # seconds that a question waits for etcd; and more, as the machine may be busy


class OneSite(nodes.Sites):
    """A site in etcd, whose addresses may change."""

    def __init__(self, urls, *more):
        self.store = ["--etcd", urls, *more]
        super().__init__(CONFIG, 1, tick=50)

    def new_words(self, *more):
        return [nodes.PROGRAMS / "polydbd", "--new", "--site", "0", "--config", self.config, "--data", self.data(0), *self.store, *more]

    def new_site(self, me, status=0):
        made = subprocess.run(self.new_words(), capture_output=True, text=True)
        assert made.returncode == status, made
        return made

    def words(self, me, *more, config=None):
        return super().words(me, *self.store, *more, config=config)

    def refused(self, words, *more, config=None):
        """A start that is refused, with these words."""
        said = subprocess.run(self.words(0, *more, config=config), capture_output=True, text=True)
        assert said.returncode == 3 and words in said.stderr, said
        return said.stderr


def etcdctl(member, *words, status=0):
    ran = subprocess.run(["etcdctl", "--endpoints", member.client, *words], capture_output=True, text=True, env={**os.environ, "ETCDCTL_API": "3"})
    assert status in (None, ran.returncode), ran
    return ran


def new_member(folder, name, *words):
    member = etcd_store.Member(name, folder, ports=(etcd_store.free_port(), etcd_store.free_port()), words=["nice"])
    member.more = list(words)
    member.start([member])
    etcd_store.Store(member.client).pairs("nothing")
    return member


def who_may_open(folder, members):
    """A site that never was, one that is made twice, another configuration, another prefix, and a second process beside the first."""
    members.append(member := new_member(folder, "first"))
    with OneSite(member.client) as site:
        assert site.new_site(0).stdout == site.new_site(0).stdout
        site.start(0)
        assert site.polydbc_commits(0, "submit", "a := a - 10 ; b := b + 10")
        assert "it is there already, whose journal has records" in site.new_site(0, status=3).stderr
        site.refused("Address already in use")  # it doesn't take the site from the one that is there
        assert site.polydbc(0, "read", "a") == ["item a 90"]
        site.stop(0)
        site.refused("is made by --new", "--etcd-prefix", "other/")
        other = site.folder / "other"
        other.write_text(CONFIG + "item c 0 5\n")
        site.refused("another configuration", config=other)
        site.refused("no addresses", "--etcd", "nonsense")
        site.refused("can't be reached", "--etcd", f"http://127.0.0.1:{etcd_store.free_port()}")
        said = site.start(0)
        assert re.search(r"whose journal has \d+ records", said) and re.search(r"taken by opening \d+", said), said
        site.stop(0)
        etcdctl(member, "del", "polydb/site-0/id")
        other.write_text(CONFIG.replace("\n", "\njournal 100000\n", 1))  # another limit, which is the one thing that may change
        site.refused("nothing says of which site and configuration", config=other)
        site.start(0, "--adopt", config=other)
        assert site.polydbc(0, "read", "a") == ["item a 90"]
        site.stop(0)
        site.refused("another configuration")
        site.start(0, config=other)
        site.stop(0)


def a_write_that_is_gone(folder, members):
    """A store that was set back under a process: it shows nothing and lets nothing out, though it is the owner still."""
    members.append(member := new_member(folder, "set-back"))
    with OneSite(member.client) as site:
        site.start(0)
        client = site.client(0)
        nodes.commits(client, "a := a - 10")
        keys = etcdctl(member, "get", "--prefix", "--keys-only", "polydb/site-0/journal/").stdout.split()
        etcdctl(member, "del", keys[-1])
        assert "was acknowledged, and is gone" in site.polydbc(0, "read", "a", status=1)[0]
        tag = client.send("submit", "a := a - 10")
        assert "was acknowledged, and is gone" in site.wait_for_log(0, "nothing is let out that rests on it")
        client.socket.settimeout(0.5)
        try:
            raise AssertionError(f"request {tag}: {client.line()}")
        except TimeoutError:
            pass


def a_store_that_is_away(folder, members):
    """A site in which nothing happens says that no member answers. What it is asked meanwhile waits for one question at most, and what was asked for goes on afterwards."""
    members.append(member := new_member(folder, "away"))
    with OneSite(member.client) as site:
        site.start(0)
        nodes.commits(site.client(0), "a := a - 10")
        member.process.send_signal(signal.SIGSTOP)
        site.wait_for_log(0, "can't be reached, or refuses it; nothing is let out")
        begun = time.monotonic()
        for _ in range(3):
            said = site.polydbc(0, "read", "a", status=1)
            assert len(said) == 1 and "can't be reached" in said[0], (said, site.log(0))
        assert site.polydbc(0, "info")[0].startswith("info ")
        took = time.monotonic() - begun
        assert took < 4 * QUESTION + SLACK, f"four answers took {took} seconds"
        tag = (client := site.client(0)).send("submit", "a := a - 10")
        member.process.send_signal(signal.SIGCONT)
        site.wait_for_log(0, "what had failed is done")
        while not (line := client.line()).startswith((f"commit {tag} ", f"refuse {tag} ")):
            assert line.startswith(f"txn {tag} "), line
        assert site.polydbc(0, "read", "b") == ["item b 50"]
        member.process.send_signal(signal.SIGSTOP)
        begun = time.monotonic()
        site.stop(0)
        took = time.monotonic() - begun
        member.process.send_signal(signal.SIGCONT)
        assert took < QUESTION + SLACK, f"it took {took} seconds to stop"


def a_store_that_fills(folder, members):
    """The operator is told at half; a full store takes nothing more, nothing is let out that rests on it, and what was asked for comes once there is room."""
    members.append(member := new_member(folder, "small", "--quota-backend-bytes", str(QUOTA)))
    store = etcd_store.Store(member.client)
    with OneSite(member.client, "--etcd-limit", str(QUOTA)) as site:
        site.start(0)
        client = site.client(0)
        nodes.commits(client, "a := a - 10")
        for number in range(60):
            filled = etcdctl(member, "put", f"junk/{number}", "x" * 100_000, status=None)
            for _ in range(3 if filled.returncode == 0 else 0):
                etcdctl(member, "put", f"junk/{number}", "x" * 100_000, status=None)
            if "exceeded" in filled.stderr:
                break
        else:
            raise AssertionError("etcd doesn't fill")
        tag = client.send("submit", "a := a - 20")
        said = site.wait_for_log(0, "nothing is let out that rests on it")
        assert "database space exceeded" in said, said
        site.wait_for_log(0, f"of its {QUOTA} bytes; when it is full nothing more is written")
        etcdctl(member, "del", "--prefix", "junk/")
        etcdctl(member, "compact", str(store.ask("/v3/kv/range", {"key": etcd_store.spell("nothing")})["header"]["revision"]))
        etcdctl(member, "defrag")
        etcdctl(member, "alarm", "disarm")
        while not (line := client.line()).startswith((f"commit {tag} ", f"refuse {tag} ")):
            assert line.startswith(f"txn {tag} "), line
        nodes.commits(client, "b := b - 5")
        assert site.polydbc(0, "read", "b") == ["item b 45"]
        site.stop(0)


def a_backup_that_is_restored(folder, members):
    """With a token of its own it is a cluster with another number: the site is refused, also where one address of several leads there, until somebody says that it is to be taken. With the token and the address of
    the cluster before, as by default, it has the number of that, and nothing notices it."""
    members.append(member := new_member(folder, "whole"))
    with OneSite(member.client) as site:
        site.start(0)
        client = site.client(0)
        nodes.commits(client, "a := a - 10")
        etcdctl(member, "snapshot", "save", f"{folder}/backup")
        nodes.commits(client, "a := a - 10")
        restored = etcd_store.Member("restored", folder, ports=(etcd_store.free_port(), etcd_store.free_port()), words=["nice"])
        words = ["--name", "restored", "--data-dir", f"{folder}/restored", "--initial-cluster", f"restored={restored.peer}", "--initial-advertise-peer-urls", restored.peer]
        etcdctl(member, "snapshot", "restore", f"{folder}/backup", *words, "--initial-cluster-token", "another")
        restored.start([restored])
        members.append(restored)
        etcd_store.Store(restored.client).pairs("nothing")
        site.stop(0)
        site.refused("isn't the one in which the site was made", "--etcd", restored.client)
        site.start(0, "--etcd", f"{member.client},{restored.client}")  # the first one answers, and the other isn't heard
        nodes.commits(site.client(0), "a := a - 10")
        member.kill()
        tag = site.client(0).send("submit", "a := a - 10")
        said = site.wait_for_log(0, "it is made again")
        assert tag == 1 and "can't be reached" in said, said
        site.kill(0)
        site.start(0, "--etcd", restored.client, "--adopt")
        assert site.polydbc(0, "read", "a") == ["item a 90"]  # set back: that is what a backup is
        site.stop(0)
        site.start(0, "--etcd", restored.client)
        site.stop(0)
        again = etcd_store.Member("again", folder, ports=(etcd_store.free_port(), member.peer.rsplit(":", 1)[1]), words=["nice"])
        words = ["--name", "again", "--data-dir", f"{folder}/again", "--initial-cluster", f"again={again.peer}", "--initial-advertise-peer-urls", again.peer]
        etcdctl(restored, "snapshot", "restore", f"{folder}/backup", *words)
        again.start([again])
        members.append(again)
        etcd_store.Store(again.client).pairs("nothing")
        site.start(0, "--etcd", again.client)
        site.stop(0)


def certificates(folder, members):
    """Members that want a certificate, and have one."""
    if shutil.which("openssl") is None:
        print("without certificates: no openssl")
        return

    def openssl(*words):
        subprocess.run(["openssl", *words], check=True, capture_output=True, cwd=folder)

    openssl("req", "-x509", "-newkey", "rsa:2048", "-nodes", "-keyout", "ca.key", "-out", "ca.pem", "-days", "2", "-subj", "/CN=authority")
    Path(folder, "names").write_text("subjectAltName=IP:127.0.0.1\n")
    for name in ("member", "site"):
        openssl("req", "-newkey", "rsa:2048", "-nodes", "-keyout", f"{name}.key", "-out", f"{name}.csr", "-subj", f"/CN={name}")
        openssl("x509", "-req", "-in", f"{name}.csr", "-CA", "ca.pem", "-CAkey", "ca.key", "-CAcreateserial", "-out", f"{name}.pem", "-days", "2", "-extfile", "names")
    member = etcd_store.Member("locked", folder, ports=(etcd_store.free_port(), etcd_store.free_port()), words=["nice"])
    member.client = member.client.replace("http:", "https:")
    member.more = ["--cert-file", f"{folder}/member.pem", "--key-file", f"{folder}/member.key", "--client-cert-auth", "--trusted-ca-file", f"{folder}/ca.pem"]
    member.start([member])
    members.append(member)
    keys = ["--etcd-authority", f"{folder}/ca.pem", "--etcd-certificate", f"{folder}/site.pem", "--etcd-key", f"{folder}/site.key"]
    nodes.until(lambda: subprocess.run(["curl", "-s", "--cacert", "ca.pem", "--cert", "site.pem", "--key", "site.key", member.client + "/health"], cwd=folder, capture_output=True).stdout, "https")
    with OneSite(member.client, *keys) as site:
        site.start(0)
        nodes.commits(site.client(0), "a := a - 10")
        site.stop(0)
        site.store = ["--etcd", member.client, *keys[:2]]
        site.refused("can't be reached, or refuses it")
        site.store = ["--etcd", member.client, *keys[2:]]
        site.refused("can't be reached, or refuses it")


def main():
    if etcd_store.missing() or shutil.which("etcdctl") is None:
        print(f"left out: {etcd_store.missing() or 'no etcdctl'}")
        sys.exit(77)
    signal.signal(signal.SIGTERM, lambda *_: sys.exit(1))  # so that nothing is left behind
    tests = [who_may_open, a_store_that_is_away, a_store_that_fills, a_write_that_is_gone, a_backup_that_is_restored, certificates]
    for test in tests:
        if len(sys.argv) > 1 and test.__name__ not in sys.argv[1:]:
            continue
        folder, members = tempfile.mkdtemp(prefix="polydb-etcd-"), []
        try:
            test(folder, members)
        finally:
            for member in members:
                member.kill()
            shutil.rmtree(folder, ignore_errors=True)
        print(f"passed: {test.__name__}", flush=True)


if __name__ == "__main__":
    main()
