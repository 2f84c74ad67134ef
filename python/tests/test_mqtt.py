"""Lines from an MQTT broker to the streams of a fleet: `examples/mqtt.py` loses none with `examples/mosquitto.conf`, and many without it."""

import contextlib
import subprocess
import sys
import unittest

from engines import Redis, environment, folder, free_port, is_open, missing, process, until
from support import EXAMPLES

MESSAGES, VEHICLES, PARTS = 7000, 50, 3
NEEDED = missing("redis", "redis-server", "paho.mqtt.client", "mosquitto")

if not NEEDED:
    import paho.mqtt.client as mqtt
    from tfpg.stream import Part, part_of


def publish(port, lines):
    """Publishes lines of vehicles as they do it, and returns once the broker has confirmed each."""
    client = mqtt.Client("vehicles")
    client.connect("127.0.0.1", port)
    client.loop_start()
    for one in [client.publish(f"vehicles/{vehicle}/log", line, qos=1) for vehicle, line in lines]:
        one.wait_for_publish(120)
    client.disconnect()
    client.loop_stop()


@unittest.skipIf(NEEDED, NEEDED)
class Carrier(unittest.TestCase):
    def setUp(self):
        stack = contextlib.ExitStack()
        self.addCleanup(stack.close)
        self.place = stack.enter_context(folder())
        self.redis = stack.enter_context(Redis(self.place, "--appendfsync", "no"))
        self.lines = [(f"car{number % VEHICLES}", f"{number} tick") for number in range(MESSAGES)]

    @contextlib.contextmanager
    def broker(self, configuration):
        """A broker with this configuration, on a port of its own."""
        port = free_port()
        text = configuration.replace("listener 1883", f"listener {port}").replace("/var/lib/mosquitto/", f"{self.place}/") + "\nuser root\n"
        (self.place / "mosquitto.conf").write_text(text, encoding="utf-8")
        with process(["mosquitto", "-c", str(self.place / "mosquitto.conf")], stdout=subprocess.DEVNULL, stderr=subprocess.DEVNULL):
            until(lambda: is_open(port), "the broker listens")
            yield port

    def carrier(self, port):
        words = [sys.executable, str(EXAMPLES / "mqtt.py"), f"127.0.0.1:{port}", str(self.redis.port), str(PARTS)]
        return process(words, env=environment(), stderr=subprocess.DEVNULL)

    def found(self):
        """The lines in the streams, by their vehicles."""
        lines = {}
        for part in range(PARTS):
            for _, fields in self.redis.client.xrange(Part(part, PARTS).lines):
                vehicle = fields[b"vehicle"].decode()
                assert part_of(vehicle, PARTS) == part
                lines.setdefault(vehicle, []).append(fields[b"line"].decode())
        return lines

    def different(self):
        """How many different lines there are."""
        return sum(len(set(lines)) for lines in self.found().values())

    def count(self):
        return sum(self.redis.client.xlen(Part(part, PARTS).lines) for part in range(PARTS))

    def away_and_back(self, port):
        """The carrier comes, goes before the lines do, and comes again."""
        with self.carrier(port):
            until(lambda: self.carried(port), "the carrier is there")
        self.redis.client.flushall()
        publish(port, self.lines)

    def carried(self, port):
        """Whether a line comes through."""
        publish(port, [("car0", "0 tick")])
        return self.count() > 0

    def test_no_line_is_lost(self):
        with self.broker((EXAMPLES / "mosquitto.conf").read_text(encoding="utf-8")) as port:
            self.away_and_back(port)
            with self.carrier(port):
                until(lambda: self.count() >= MESSAGES // 3, "a third of the lines is there")
            with self.carrier(port):  # the one before was killed, and what it had not acknowledged comes again
                until(lambda: self.count() >= MESSAGES and self.different() == MESSAGES, "all lines are there")
        wanted = {}
        for vehicle, line in self.lines:
            wanted.setdefault(vehicle, []).append(line)
        self.assertEqual({name: sorted(set(lines), key=lambda line: int(line.split(" ")[0])) for name, lines in self.found().items()}, wanted)

    def test_without_its_settings_the_broker_drops_lines(self):
        with self.broker("listener 1883 127.0.0.1\nallow_anonymous true\n") as port:
            self.away_and_back(port)
            with self.carrier(port):
                until(lambda: self.count() >= 1000, "what the broker kept is there")
                publish(port, [("last", "0 tick")])
                until(lambda: "last" in self.found(), "what came later is there")
        self.assertLess(self.count(), MESSAGES)


if __name__ == "__main__":
    unittest.main()
