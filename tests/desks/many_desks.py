"""Many desks over stock parts: the scripts of examples/many-desks, with a real broker, backup
program and network."""
import json
import os
import re
import shutil
import signal
import socket
import subprocess
import time

from common.room import ROOT, Failed, Room, Skipped

EXAMPLE = os.path.join(ROOT, "examples", "many-desks")
THINGS = {
    "STORE": ["1987.12.3", "1987.12.4"],
    "PACKING": ["C1", "1987.12.1"],
    "GALLERY": ["1991.4.7", "1991.4.8"],
}
PLACES = ["A-1", "A-2", "PACK", "DOCK", "GAL1", "GAL2"]
# seconds that a test waits for a part before it fails
PATIENCE = 40


def until(holds, what):
    """Waits until this holds."""
    end = time.monotonic() + PATIENCE
    while not holds():
        if time.monotonic() > end:
            raise Failed(f"waited too long for {what}")
        time.sleep(0.02)


class ROOM(Room):
    """A room with a museum, and the processes that were started in it. Each station sends so many
    messages."""

    messages = 100

    def furnish(self):
        self.running = []
        os.mkdir(self.path("bin"))
        os.symlink(self.program, self.path("bin/pairsalder"))
        shutil.copy(os.path.join(EXAMPLE, "museum.csv"), self.folder)
        own = {
            name: value
            for name, value in os.environ.items()
            if not name.startswith(("PAIRSALDER_", "RESTIC_"))
        }
        # brokers and `ip` are often outside a user's path
        own["PATH"] = self.path("bin") + ":" + own["PATH"] + ":/usr/sbin:/sbin"
        self.environment = own | {"HOME": self.folder}

    def need(self, *names, messages):
        """Skips the test if one of these commands is not installed, and sets how many messages each
        station sends."""
        self.messages = messages
        for name in names:
            if not shutil.which(name, path=self.environment["PATH"]):
                raise Skipped(f"{name} is not installed")

    def text(self, name):
        return self.read(name).decode()

    def start(self, *words, log="log.txt", given=None):
        """A process with a group of its own, whose output goes to a file."""
        with open(self.path(log), "wb") as file:
            stdin = open(self.path(given), "rb") if given else subprocess.DEVNULL
            process = subprocess.Popen(
                words,
                cwd=self.folder,
                env=self.environment,
                stdin=stdin,
                stdout=file,
                stderr=file,
                start_new_session=True,
            )
        self.running.append(process)
        return process

    def script(self, name, *words, log, inside=()):
        return self.start(*inside, os.path.join(EXAMPLE, name), *words, log=log)

    def stop(self, process):
        """Kills a process, and all that it started, unless it has ended."""
        if process.returncode is None:
            os.killpg(process.pid, signal.SIGKILL)
            process.wait(PATIENCE)

    def stop_hub(self, hub, store):
        """Kills a hub, and waits until a command can open its store: its program can end after its
        script."""
        self.stop(hub)
        words = ["pairsalder", "stations", "--setup", "museum.csv", "--store", store]
        until(lambda: self.do(*words)[0] == 0, f"the end of the hub over {store}")

    def do(self, *words):
        """The status and the output of a command, with its errors."""
        ran = subprocess.run(
            words,
            cwd=self.folder,
            env=self.environment,
            stdin=subprocess.DEVNULL,
            stdout=subprocess.PIPE,
            stderr=subprocess.STDOUT,
            timeout=PATIENCE,
            check=False,
        )
        return ran.returncode, ran.stdout.decode()

    def report(self, name, store):
        status, text = self.do("pairsalder", name, "--setup", "museum.csv", "--store", store)
        if status:
            print(f"{name} of {store}: {text.strip()}")
        return text

    def are_same(self, *stores):
        """Whether these stores have the same entries."""
        return len({self.report("posted", store) for store in stores}) == 1

    def end(self):
        """Stops all that was started."""
        for process in self.running:
            self.stop(process)

    def __exit__(self, *_):
        self.end()
        super().__exit__()

    def feed(self, station):
        """A station's messages, a few of them late and some of them twice, as a file."""
        lines = []
        for n in range(1, self.messages + 1):
            move = {
                "kind": "move",
                "thing": self.draws.choice(THINGS[station]),
                "place": self.draws.choice(PLACES),
            }
            line = json.dumps(
                {"station": station, "n": n, "message": move | {"day": "2024-06-03"}},
                separators=(",", ":"),
            )
            lines += [(n + self.draws.randrange(9), line)] + [
                (n + self.draws.randrange(40), line)
            ] * (self.draws.random() < 0.3)
        lines.sort(key=lambda it: it[0])
        return self.write(f"{station}.jsonl", "".join(f"{line}\n" for _, line in lines))

    def question(self, station):
        """A file with a question: a hub that answers it has read whatever was sent before."""
        return self.write(
            f"{station}.ask", json.dumps({"station": station, "ask": "1987.12.2"}) + "\n"
        )

    def posted(self, log):
        """How many messages a hub has posted, by its replies."""
        return len(re.findall(r" posted ", self.text(log)))

    def complete(self, store):
        """Whether a record has all messages of all stations, each once."""
        entries = [it.split()[1:3] for it in self.report("posted", store).splitlines()]
        wanted = [[station, str(n)] for station in THINGS for n in range(1, self.messages + 1)]
        return sorted(entries) == sorted(wanted) and self.report("stations", store) == "".join(
            f"{station} next {self.messages + 1}\n" for station in THINGS
        )


def free_port():
    with socket.socket() as it:
        it.bind(("127.0.0.1", 0))
        return it.getsockname()[1]


def redis(room, *more, inside=(), address="127.0.0.1", port):
    """A broker that keeps its stream on disk, and answers."""
    os.makedirs(room.path("redis"), exist_ok=True)
    broker = room.start(
        *inside,
        "redis-server",
        "--bind",
        address,
        "--port",
        str(port),
        "--dir",
        room.path("redis"),
        "--save",
        "",
        "--appendonly",
        "yes",
        "--appendfsync",
        "always",
        *more,
        log="redis.txt",
    )
    ping = [*inside, "redis-cli", "-h", address, "-p", str(port), "ping"]
    until(lambda: room.do(*ping)[1].strip() == "PONG", "redis-server")
    return broker


def on_stream(room, url, inside=()):
    """How many entries the stream has."""
    return int(room.do(*inside, "redis-cli", "-u", url, "--raw", "XLEN", "pairsalder")[1])


def sent(senders):
    until(lambda: all(it.poll() is not None for it in senders), "the senders")
    return all(it.returncode == 0 for it in senders)


def test_stream(room, messages=100):
    """Three stations send at once, the broker and a hub are killed and come back: both hubs have
    the same, whole record."""
    room.need("redis-server", "redis-cli", messages=messages)
    port = free_port()
    url = f"redis://127.0.0.1:{port}"
    broker = redis(room, port=port)
    hub = room.script("hub.sh", url, "museum.csv", "one.db", log="one.txt")
    senders = [room.script("send.sh", url, room.feed(it), log=f"{it}.txt") for it in THINGS]
    until(lambda: on_stream(room, url) > room.messages // 2, "the first messages")
    room.stop(broker)
    time.sleep(0.3)
    redis(room, port=port)
    until(lambda: room.posted("one.txt") > room.messages, "messages after the broker's restart")
    room.stop_hub(hub, "one.db")
    room.script("hub.sh", url, "museum.csv", "one.db", log="one.again.txt")
    good = sent(senders) and sent(
        [room.script("send.sh", url, room.question("STORE"), log="ask.txt")]
    )
    room.script("hub.sh", url, "museum.csv", "two.db", log="two.txt")
    for log in ("one.again.txt", "two.txt"):
        until(lambda log=log: "STORE ask " in room.text(log), f"the whole stream in {log}")
    room.end()
    return good and room.complete("one.db") and room.are_same("one.db", "two.db")


def mosquitto(room):
    """The topic of a broker for MQTT, which answers."""
    port = free_port()
    topic = f"mqtt://127.0.0.1:{port}/pairsalder"
    with open(os.path.join(EXAMPLE, "mosquitto.conf"), encoding="utf-8") as file:
        text = file.read().replace("listener 1883", f"listener {port}")
    user = "user root\n" if os.geteuid() == 0 else ""
    room.write("mosquitto.conf", text + user + f"persistence_location {room.folder}/\n")
    room.start("mosquitto", "-c", "mosquitto.conf", log="mosquitto.txt")
    until(lambda: room.do("mosquitto_pub", "-L", topic + "/try", "-m", "1")[0] == 0, "mosquitto")
    return topic


def test_scanners(room, messages=100):
    """Messages over MQTT come twice and out of order, and the hub is killed and comes back: it ends
    with the whole record. If it gets TERM, it closes the store and ends."""
    room.need("mosquitto", "mosquitto_pub", "mosquitto_sub", messages=messages)
    topic = mosquitto(room)
    words = ["mqtt_hub.sh", topic, "hub-1", "journal.jsonl", "museum.csv", "one.db"]
    hub = room.script(*words, log="one.txt")
    until(
        lambda: re.search(r"Received SUBSCRIBE|hub-1", room.text("mosquitto.txt")),
        "the hub's subscription",
    )
    time.sleep(0.3)
    first = [
        room.script("mqtt_send.sh", topic, room.feed(it), log=f"{it}.txt")
        for it in ("STORE", "PACKING")
    ]
    until(lambda: room.posted("one.txt") > room.messages // 2, "the first messages")
    room.stop_hub(hub, "one.db")
    late = [room.script("mqtt_send.sh", topic, room.feed("GALLERY"), log="GALLERY.txt")]
    good = sent(first + late)
    again = room.script(*words, log="one.again.txt")
    until(lambda: "GALLERY" in room.text("one.again.txt"), "the messages that the broker kept")
    # what the killed hub had taken from the broker, but not kept, comes with the files once more
    good &= sent(
        [room.script("mqtt_send.sh", topic, f"{it}.jsonl", log=f"{it}.txt") for it in THINGS]
    )
    good &= sent([room.script("mqtt_send.sh", topic, room.question("STORE"), log="ask.txt")])
    until(lambda: "STORE ask " in room.text("one.again.txt"), "all messages")
    again.terminate()
    good &= again.wait(PATIENCE) == 1
    room.end()
    words = ["pairsalder", "replay", "-s", "museum.csv", "-d", "two.db"]
    room.start(*words, log="two.txt", given="journal.jsonl").wait(PATIENCE)
    return good and room.complete("one.db") and room.are_same("one.db", "two.db")


def test_backups(room, messages=100):
    """restic takes a copy, and gives it back; a store in use is refused, and no backup is
    overwritten."""
    room.need("restic", messages=messages)
    room.environment |= {
        "RESTIC_REPOSITORY": room.path("vault"),
        "RESTIC_PASSWORD_FILE": room.path("secret"),
    }
    room.write("secret", "wall of four\n")
    words = [os.path.join(EXAMPLE, "backup.sh"), "museum.csv", "one.db", "backup-1"]
    os.mkfifo(room.path("lines"))
    held = os.open(room.path("lines"), os.O_RDWR)
    hub = room.start(
        "pairsalder", "replay", "-s", "museum.csv", "-d", "one.db", log="one.txt", given="lines"
    )
    lines = "".join(room.text(room.feed(it)) for it in THINGS)
    os.write(held, lines.encode())
    until(lambda: room.posted("one.txt") == 3 * room.messages, "the record")
    good = room.do("restic", "init")[0] == 0
    status, text = room.do(*words)
    good &= (
        status == 1 and "fault store Store" in text and not os.path.exists(room.path("backup-1"))
    )
    os.close(held)
    hub.wait(PATIENCE)
    good &= room.do(*words)[0] == 0 and room.do(*words)[0] != 0
    good &= room.do("restic", "restore", "latest", "--target", "back")[0] == 0
    found = [
        os.path.join(at, "museum.db")
        for at, _, names in os.walk(room.path("back"))
        if "museum.db" in names
    ]
    good &= len(found) == 1 and room.complete("one.db")
    return good and room.report("posted", found[0]) == room.report("posted", "one.db")


class Link:
    """Two hosts, which are network namespaces, and a link between them."""

    def __init__(self, room):
        self.room, self.names = room, [f"psa{os.getpid()}", f"psb{os.getpid()}"]
        self.here, self.there = (["ip", "netns", "exec", it] for it in self.names)

    def __enter__(self):
        if os.geteuid() or self.room.do("ip", "netns", "add", self.names[0])[0]:
            raise Skipped("no network namespace can be made here")
        one, other = self.names
        made = [self.room.do("ip", "netns", "add", other)]
        made += [
            self.room.do(
                *"ip link add va netns".split(), one, *"type veth peer name vb netns".split(), other
            )
        ]
        for name, link, address in ((one, "va", "10.231.7.1/24"), (other, "vb", "10.231.7.2/24")):
            for words in (
                f"addr add {address} dev {link}",
                f"link set {link} up",
                "link set lo up",
            ):
                made.append(self.room.do("ip", "-n", name, *words.split()))
        if any(status for status, _ in made):
            self.__exit__()
            raise Skipped("no link between two network namespaces can be made here")
        return self

    def set(self, state):
        """Whether the link could be set up or down."""
        return self.room.do("ip", "-n", self.names[0], "link", "set", "va", state)[0] == 0

    def __exit__(self, *_):
        self.room.end()
        for name in self.names:
            self.room.do("ip", "netns", "del", name)


def test_cut(room, messages=100):
    """Two hosts have a hub each, and the link between them is cut for a while: both end with the
    same, whole record."""
    room.need("redis-server", "redis-cli", "ip", messages=messages)
    url = "redis://10.231.7.1:6379"
    with Link(room) as link:
        redis(room, "--protected-mode", "no", inside=link.here, address="10.231.7.1", port=6379)
        room.script("hub.sh", url, "museum.csv", "one.db", log="one.txt", inside=link.here)
        room.script("hub.sh", url, "museum.csv", "two.db", log="two.txt", inside=link.there)
        hosts = {"STORE": link.here, "PACKING": link.there, "GALLERY": link.there}
        senders = [
            room.script("send.sh", url, room.feed(it), log=f"{it}.txt", inside=hosts[it])
            for it in THINGS
        ]
        until(lambda: on_stream(room, url, link.here) > room.messages // 2, "the first messages")
        good = link.set("down")
        until(lambda: senders[0].poll() is not None, "the station beside the broker")
        good &= senders[1].poll() is None
        time.sleep(1)
        good &= link.set("up") and sent(senders)
        good &= sent(
            [room.script("send.sh", url, room.question("STORE"), log="ask.txt", inside=link.there)]
        )
        for log in ("one.txt", "two.txt"):
            until(lambda log=log: "STORE ask " in room.text(log), f"the whole stream in {log}")
        room.end()
        return good and room.complete("one.db") and room.are_same("one.db", "two.db")
