"""Carries lines from an MQTT broker to the streams of a fleet, until it is stopped: mqtt.py BROKER REDIS_PORT PARTS.

A vehicle publishes its lines under `vehicles/NAME/log`, with QoS 1. `docs/fleets.md` says what has to be set so that none is dropped. A
message is acknowledged after `send` returned; if that fails, this ends, and the broker sends the message again to the next one.
"""

import sys

import paho.mqtt.client as mqtt
import redis
from tfpg.stream import send

broker, port, parts = sys.argv[1].partition(":"), int(sys.argv[2]), int(sys.argv[3])
store = redis.Redis(port=port)
carrier = mqtt.Client("tfpg-carrier", clean_session=False)
carrier.on_connect = lambda client, *_: client.subscribe("vehicles/+/log", qos=1)
carrier.on_message = lambda _, __, message: send(store, message.topic.split("/")[1], message.payload, parts)
carrier.connect(broker[0], int(broker[2] or 1883))
carrier.loop_forever()
