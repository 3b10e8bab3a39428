"""What checks/serve, checks/load and bench/serve share: a server on a free port of the loopback, connections to it, and what a session
over the same requests replies. It is no check itself."""
import atexit, os, re, socket, struct, subprocess, tempfile, time
from typing import NamedTuple

TOP = os.path.dirname(os.path.dirname(os.path.abspath(__file__)))
METADATA = os.path.join(TOP, "examples/metadata.json")
HOST = "127.0.0.1"
PATIENCE = 100      # seconds that a connection of a check waits for a reply
HEADERS = ("Content-Type", "Content-Length", "X-Change", "X-Published", "Connection")


class Reply(NamedTuple):
    """A reply: the number and the phrase of its status, those of its headers that are named above, and its body."""
    status: int
    phrase: str
    headers: dict
    body: bytes

    def number(self, name):
        """The number of a header, or none."""
        text = self.headers.get(name)
        return int(text) if text is not None else None

    def closing(self):
        """The same reply, of a connection that ends after it."""
        return self._replace(headers=self.headers | {"Connection": "close"})


def reply_of(status, phrase, pairs, body):
    """A reply as a client knows it, from its headers as pairs in any case."""
    given = {name.lower(): value for name, value in pairs}
    return Reply(int(status), phrase, {it: given[it.lower()] for it in HEADERS if it.lower() in given}, body)


def take_reply(text):
    """The first reply of a text, and the text after it; none where it isn't whole."""
    head, end, rest = text.partition(b"\r\n\r\n")
    if not end:
        return None, text
    line, *fields = head.decode("latin-1").split("\r\n")
    found = re.fullmatch(r"HTTP/1\.1 (\d{3}) (.*)", line)
    length = re.search(rb"^Content-Length: (\d+)\r?$", head, re.M | re.I)
    if not found or not length:
        raise ValueError(f"no reply: {head[:200]!r}")
    length = int(length[1])
    if len(rest) < length:
        return None, text
    return reply_of(*found.groups(), (it.split(": ", 1) for it in fields), rest[:length]), rest[length:]


def replies_in(text):
    """The replies of a text."""
    found = []
    while text:
        reply, text = take_reply(text)
        if reply is None:
            raise ValueError(f"a reply is cut: {text[:200]!r}")
        found.append(reply)
    return found


def request(method, target, token=None, body=None, fields=()):
    """The bytes of a request."""
    lines = [f"{method} {target} HTTP/1.1", f"Host: {HOST}"]
    lines += [f"Authorization: ApiToken {token}"] if token else []
    lines += ["Content-Type: application/json", f"Content-Length: {len(body)}"] if body is not None else []
    return "\r\n".join([*lines, *fields, "", ""]).encode() + (body or b"")


def session(program, given, metadata=METADATA, most=240):
    """The status of a session over an input, and what it writes."""
    with tempfile.TemporaryFile() as source:
        source.write(given)
        source.seek(0)
        ran = subprocess.run([program, "session", metadata], stdin=source, capture_output=True, timeout=most)
    return ran.returncode, ran.stdout


class Server:
    """A server that was started, and is ended with the block that it stands in."""

    def __init__(self, program, workers, connections, metadata=METADATA, output=subprocess.PIPE):
        for _ in range(20):
            self.port = free_port()
            words = [program, "serve", metadata, f"{HOST}:{self.port}", str(workers), str(connections)]
            self.process = subprocess.Popen(words, stdin=subprocess.DEVNULL, stdout=output, stderr=subprocess.DEVNULL)
            if self.listens():
                return
            self.kill()
            if self.process.returncode != 10:
                raise OSError(f"{' '.join(words)} ended with status {self.process.returncode} before it listened")
        raise OSError("no free port was found")

    def listens(self):
        """Whether it listens, waiting for that unless it ends. The system's table of sockets says so, since to connect counts."""
        wanted = f"0100007F:{self.port:04X} 00000000:0000 0A"
        atexit.register(self.kill)
        while self.process.poll() is None:
            if any(wanted in line for line in open("/proc/net/tcp", encoding="ascii")):
                return True
            time.sleep(0.005)
        return False

    def ended(self, most=10):
        """The status with which it ended and what it wrote, or none where it still goes on."""
        try:
            written, _ = self.process.communicate(timeout=most)
        except subprocess.TimeoutExpired:
            return None
        return self.process.returncode, written

    def memory(self):
        """Its resident memory in bytes."""
        return int(re.search(r"VmRSS:\s+(\d+)", open(f"/proc/{self.process.pid}/status", encoding="ascii").read())[1]) * 1024

    def kill(self):
        """Ends it at once, if it goes on."""
        if self.process.poll() is None:
            self.process.kill()
        self.process.wait()
        atexit.unregister(self.kill)
        if self.process.stdout:
            self.process.stdout.close()

    def __enter__(self):
        return self

    def __exit__(self, *_):
        self.kill()


def free_port():
    """A port that nobody listens at now."""
    with socket.socket() as it:
        it.bind((HOST, 0))
        return it.getsockname()[1]


class Connection:
    """A connection that is kept, and closed with the block that it stands in."""

    def __init__(self, port, room=None):
        self.socket = socket.socket()
        self.socket.settimeout(PATIENCE)
        if room:
            self.socket.setsockopt(socket.SOL_SOCKET, socket.SO_RCVBUF, room)
        self.socket.connect((HOST, port))
        self.socket.setsockopt(socket.IPPROTO_TCP, socket.TCP_NODELAY, 1)
        self.text = b""

    def send(self, text):
        self.socket.sendall(text)

    def reply(self):
        """The next reply, or none at the end of what the peer sends."""
        while True:
            found, self.text = take_reply(self.text)
            if found:
                return found
            piece = self.socket.recv(1 << 18)
            if not piece:
                return None
            self.text += piece

    def ask(self, text):
        """The reply to a request."""
        self.send(text)
        return self.reply()

    def rest(self):
        """All that the peer sends until it closes or resets the connection."""
        try:
            while piece := self.socket.recv(1 << 18):
                self.text += piece
        except ConnectionResetError:
            pass
        return self.text

    def last(self):
        """Tells the peer that nothing more is sent."""
        self.socket.shutdown(socket.SHUT_WR)

    def reset(self):
        """Ends it as a peer that breaks down."""
        self.socket.setsockopt(socket.SOL_SOCKET, socket.SO_LINGER, struct.pack("ii", 1, 0))
        self.socket.close()

    def __enter__(self):
        return self

    def __exit__(self, *_):
        self.socket.close()
