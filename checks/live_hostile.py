"""What a client that isn't one may try on the front, for `checks/live hostile`: the match goes on by its clock."""
import asyncio
import json
import os
import resource
import select
import socket
import struct
import subprocess
import sys
import tempfile
import time
from types import SimpleNamespace

import arena
from arena_live.guard import GOODBYE_SECONDS, Guard
from arena_live.metrics import Metrics
from arena_live.sessions import Sessions
from arena_live.web import Web
from live import LIVE, MAP, Front, memory_of, want

UPGRADE = "Upgrade: websocket\r\nConnection: Upgrade\r\nSec-WebSocket-Version: 13\r\nSec-WebSocket-Key: AAAAAAAAAAAAAAAAAAAAAA==\r\n"
# Requests that the front can't take. None of them may say anything on the operator's terminal.
BAD_REQUESTS = {
    "an escape": b"\x1b[31mhello\x07\r\n\r\n",
    "an escape in a path": b"GET /\x1b[2J HTTP/1.1\r\nHost: 127.0.0.1\r\n\r\n",
    "no host": f"GET /live HTTP/1.0\r\n{UPGRADE}\r\n".encode(),
    "a host that is none": f"GET /live HTTP/1.1\r\nHost: [\r\n{UPGRADE}\r\n".encode(),
    "an origin that is none": f"GET /live HTTP/1.1\r\nHost: 127.0.0.1\r\nOrigin: http://[\r\n{UPGRADE}\r\n".encode(),
    "a path that is none": b"GET http://[/ HTTP/1.1\r\nHost: 127.0.0.1\r\n\r\n",
    "a long head": b"GET / HTTP/1.1\r\nX: " + b"a" * 40_000 + b"\r\n\r\n",
    "a body": b"POST /map HTTP/1.1\r\nHost: 127.0.0.1\r\nContent-Length: 1000000000\r\n\r\n" + b"a" * 100_000,
    "bytes 0": bytes(1000) + b"\r\n\r\n",
}
HEAD = b"GET /live HTTP/1.1\r\nHost: 127.0.0.1\r\n"
BAD_REQUESTS["a key that isn't of ASCII"] = HEAD + UPGRADE.encode().replace(b"Key: A", b"Key: \xe9") + b"\r\n"
BAD_REQUESTS["another upgrade"] = HEAD + UPGRADE.encode().replace(b"websocket", b"web\xdfocket") + b"\r\n"
FILES = 256


def connected(front):
    link = socket.create_connection(("127.0.0.1", front.http), 5)
    link.settimeout(2)
    return link


def bad_requests(front):
    for name, request in BAD_REQUESTS.items():
        with connected(front) as link:
            try:
                link.sendall(request)
                said = link.recv(4096)
            except OSError:
                said = b""
        want(said == b"" or said[9:10] == b"4", f"{name} is answered by {said[:60]}")


def page_socket(front, header=""):
    """A socket as a page has it, welcomed, or as far as it was answered."""
    link = connected(front)
    link.sendall(f"GET /live HTTP/1.1\r\nHost: 127.0.0.1:{front.http}\r\n{header}{UPGRADE}\r\n".encode())
    return link


def reset(link):
    link.setsockopt(socket.SOL_SOCKET, socket.SO_LINGER, struct.pack("ii", 1, 0))
    link.close()


def resets(front):
    """Connections that are reset at once, and while they are answered."""
    page_socket(front, "Sec-WebSocket-Protocol: words-of-a-client\r\n").close()
    for _ in range(40):
        reset(page_socket(front))
        link = page_socket(front)
        link.recv(4096)
        link.sendall(b"\x89\x80\0\0\0\0" * 30)
        reset(link)


class Narrow(Web):
    """It keeps little for a page that doesn't read."""

    def _connection(self):
        guard = super()._connection()

        def made(transport):
            transport.get_extra_info("socket").setsockopt(socket.SOL_SOCKET, socket.SO_SNDBUF, 4096)
            Guard.connection_made(guard, transport)

        guard.connection_made = made
        return guard


async def unread_page():
    """A page that reads nothing, and then says what no page does, is gone soon."""
    sessions = Sessions(Metrics(), 20)
    web = Narrow(SimpleNamespace(lines=[]), sessions, Metrics())
    _, writer = await asyncio.open_connection("127.0.0.1", await web.listen("127.0.0.1", 0))
    writer.transport.pause_reading()
    writer.write(HEAD + UPGRADE.encode() + b"\r\n")
    await asyncio.sleep(0.5)
    for session in sessions:
        for _ in range(500):
            sessions.tell(session, bytes(10_000))
            await asyncio.sleep(0)
    want(len(web._guards) == 1, "a page that reads nothing isn't connected")
    writer.write(b"\x81\x80\0\0\0\0")
    await asyncio.sleep(GOODBYE_SECONDS + 1)
    want(not web._guards, "a page that reads nothing keeps its socket")
    writer.close()
    await web.close()


def requests_without_end(front):
    """One connection that sends requests and reads no answer."""
    before = memory_of(front.process.pid)
    with connected(front) as link:
        try:
            for _ in range(2_000):
                link.sendall(b"GET /map HTTP/1.1\r\nHost: 127.0.0.1\r\n\r\n" * 200)
        except OSError:
            pass
    grown = memory_of(front.process.pid) - before
    want(grown < 20_000, f"requests without end make the front {grown} KiB larger")


async def flood(port, seconds):
    """A page that sends short messages as fast as it can."""
    reader, writer = await asyncio.open_connection("127.0.0.1", port)
    writer.write(f"GET /live HTTP/1.1\r\nHost: 127.0.0.1:{port}\r\n{UPGRADE}\r\n".encode())
    await reader.readuntil(b"\r\n\r\n")
    until = time.monotonic() + seconds
    try:
        while time.monotonic() < until:
            writer.write(b"\x82\x80\0\0\0\0" * 2_000 + b"\x89\x80\0\0\0\0" * 2_000)
            await asyncio.wait_for(writer.drain(), seconds)
    except (OSError, asyncio.TimeoutError):
        pass
    writer.close()


async def floods(port):
    await asyncio.gather(*(flood(port, 3) for _ in range(20)))


def held_connections(front):
    """More connections than files, which say nothing: the front answers again once they were told to go."""
    links = []
    for _ in range(2 * FILES):
        try:
            links.append(connected(front))
        except OSError:
            break
    until = time.monotonic() + 20
    while time.monotonic() < until:
        try:
            front.get("/map")
            break
        except OSError:
            time.sleep(0.5)
    else:
        want(False, "connections that say nothing keep all others away")
    for link in links:
        link.close()


def unanswered_hello(front):
    """A datagram may come from another's address, so little is sent to one that hasn't shown its token."""
    with socket.socket(socket.AF_INET, socket.SOCK_DGRAM) as link:
        link.connect(("127.0.0.1", front.udp))
        link.send(bytes(16))
        link.settimeout(6)
        got = 0
        try:
            while True:
                got += len(link.recv(65_536))
        except OSError:
            pass
        want(got == 24, f"16 bytes from an address that says no more bring it {got}")
        link.send(bytes(16))
        token = link.recv(100)[1:17]
        link.send(token)
        kinds = {link.recv(65_536)[:1] for _ in range(5)}
        want(b"\x02" in kinds, f"a client that has shown its token gets {kinds}")


def told(link, is_wanted, seconds=5):
    """The first message that is wanted, or None where none comes in this time."""
    until = time.monotonic() + seconds
    try:
        while (left := until - time.monotonic()) > 0:
            link.settimeout(left)
            message = link.recv(65_536)
            if is_wanted(message):
                return message
    except OSError:
        pass
    return None


def odd_messages(front):
    """A hello has 16 bytes, a message that is too long is told to its sender, and one that plays sees its own place alone."""
    with socket.socket(socket.AF_INET, socket.SOCK_DGRAM) as link:
        link.connect(("127.0.0.1", front.udp))
        link.send(bytes(17))
        link.send(bytes(300))
        want(told(link, bool, 1) is None, "a hello with more than 16 bytes is answered")
        link.send(bytes(16))
        token = told(link, bool)[1:17]
        link.send(token + bytes([0, 1, 0]))
        want(told(link, lambda m: m[:1] == b"\x02" and arena.read_head(m[1:]).slot == 0), "a slot that was chosen isn't seen")
        link.send(token + arena.join())
        joined = told(link, lambda m: m[:1] == b"\x03" and json.loads(m[1:])["you"] is not None)
        slot = json.loads(joined[1:])["you"]
        link.send(token + bytes([0, 1, 0]))
        link.send(token + bytes(300))
        names = set()
        told(link, lambda m: m[:1] == b"\x03" and names.update(json.loads(m[1:]).get("refused", [])) or len(names) == 2)
        want(names == {"front-message", "front-long"}, f"one that plays and chooses a slot, and is too long, is told {names}")
        seen = told(link, lambda m: m[:1] == b"\x02")
        want(arena.read_head(seen[1:]).slot == slot != 0, "one that plays sees the slot that it chose")
        link.send(token + arena.leave())


def renewed_joins(front):
    """Clients whose joins are refused have a new port in the same frame, and as many packets as before alone."""
    links, until = [], time.monotonic() + 3
    for _ in range(64):
        link = socket.socket(socket.AF_INET, socket.SOCK_DGRAM)
        link.connect(("127.0.0.1", front.udp))
        link.setblocking(False)
        link.send(bytes(16))
        links.append(link)
    tokens = {}
    while time.monotonic() < until:
        for link in select.select(links, [], [], 0.001)[0]:
            message = link.recv(65_536)
            if message[:1] == b"\x01" and message[1:17] != tokens.get(link):
                tokens[link] = message[1:17]
                for packet in (arena.join(), *[b"\x07"] * 6):
                    link.send(tokens[link] + packet)
        for link, token in tokens.items():
            link.send(token + b"\x07")
    for link in links:
        link.close()
    want(front.process.poll() is None, "clients whose joins are refused break the match off")


def bounded_frame():
    """A frame has 512 packets at most, with a leave of each player once, however its clients go."""
    sessions, told = Sessions(Metrics(), 20), {}
    for number in range(64):
        sessions.open(number, "page", lambda message, to=number: told.update({to: message[1:17]}), 0.0)
        sessions.receive(number, told[number] + arena.join(), 0.0)
    sessions.take_arrivals()
    sessions.strangers = list(range(1000, 1064))
    for number in range(64):
        for _ in range(9):
            sessions.receive(number, told[number] + b"\x07", 0.0)
        if number % 3 == 0:
            sessions.close(number)
    sessions.leave_all()
    arrivals = sessions.take_arrivals()
    leaving = [port for port, data in arrivals if data == arena.leave()]
    want(len(arrivals) == 512, f"a frame has {len(arrivals)} packets")
    want(len(leaving) == len(set(leaving)) == 128, f"128 players leave {len(leaving)} times")


def hellos_alone(front):
    """256 that only say hello keep nobody out, and one that has shown its token keeps its place."""
    links = [socket.socket(socket.AF_INET, socket.SOCK_DGRAM) for _ in range(300)]
    for link in links:
        link.connect(("127.0.0.1", front.udp))
        link.settimeout(2)
    links[0].send(bytes(16))
    links[0].send(links[0].recv(100)[1:17])
    for link in links[1:]:
        link.send(bytes(16))
        want(link.recv(100)[:1] == b"\x01", "addresses that only say hello keep others out")
    want(told(links[0], lambda message: message[:1] == b"\x04", 1) is None, "one that watches loses its place")
    for link in links:
        link.close()


def try_hostile(words):
    bounded_frame()
    asyncio.run(unread_page())
    with tempfile.TemporaryDirectory(prefix="live-") as top:
        hard = resource.getrlimit(resource.RLIMIT_NOFILE)
        resource.setrlimit(resource.RLIMIT_NOFILE, (FILES, hard[1]))
        try:
            front = Front(MAP, "--bots", "4", "--match", "200", "--save", os.path.join(top, "match"))
        finally:
            resource.setrlimit(resource.RLIMIT_NOFILE, hard)
        with front:
            bad_requests(front)
            resets(front)
            requests_without_end(front)
            asyncio.run(floods(front.http))
            held_connections(front)
            unanswered_hello(front)
            odd_messages(front)
            hellos_alone(front)
            renewed_joins(front)
            counts = front.metrics()
            text, status = front.end()
        late = counts["arena_late_frames_total"]
        want(status == 0 and text.count("live: right:") >= 2, f"status {status}, {text}")
        is_quiet = all(line.startswith("live: ") for line in text.splitlines()) and "fault" not in text
        want(is_quiet, f"the operator is shown {text[:2000]}")
        want(late < 20, f"{late} frames are late")
        folders_of_others(top)
        print(f"hostile: bad requests, floods and held connections: {late:.0f} late frames, and each match is right")


def folders_of_others(top):
    """A folder to resume or to save into may be anybody's: nothing else than a match in it is changed."""
    folder, victim = os.path.join(top, "given"), os.path.join(top, "victim.demo")
    os.mkdir(folder)
    texts = {victim: "arena\nframe\nfrom", os.path.join(folder, "lock"): "kept", os.path.join(folder, "match.out"): "kept"}
    for path, text in texts.items():
        with open(path, "w", encoding="ascii") as file:
            file.write(text)
    ways = [[MAP, "--save", folder]]
    for changed in ({"name": "../victim"}, {"hz": 0}, {"workers": "1"}, {"hz": True}, {"name": None}):
        ways.append((changed, ["--resume", folder]))
    for way in ways:
        given = way
        if isinstance(way, tuple):
            changed, given = way
            with open(os.path.join(folder, "match.json"), "w", encoding="ascii") as file:
                json.dump({"workers": 1, "hz": 20, "name": "match", **changed}, file)
        done = subprocess.run([sys.executable, LIVE, *given], capture_output=True, text=True, timeout=30)
        want(done.returncode == 2 and "Traceback" not in done.stderr, f"{given}: status {done.returncode}, {done.stderr}")
    for path, text in texts.items():
        with open(path, encoding="ascii") as file:
            want(file.read() == text, f"{os.path.basename(path)} is changed")
    want(not os.path.exists(os.path.join(folder, "match.demo")), "a folder that isn't taken gets a recording")
