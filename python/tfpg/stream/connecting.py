"""The connection to the server that has a part. A password comes from the environment or from a file, and never from the words."""

from __future__ import annotations

import os
from pathlib import Path
from typing import Any, Dict, Optional
from urllib.parse import parse_qs, urlsplit

import redis
from redis.cluster import RedisCluster

from .faults import NoStore
from .parts import Part

VARIABLE = "TFPG_REDIS_PASSWORD"
SECONDS = 10  # for which an answer is waited for


class BadPassword(Exception):
    """A password is named, and there is none that can be read."""


def password_of(file: Optional[str]) -> Optional[str]:
    """The password: the first line of the file, or else the variable of the environment, or none. BadPassword says what is wrong."""
    named = VARIABLE if file is None else f"--password-file: {file}"
    try:
        found = os.environ.get(VARIABLE) if file is None else Path(file).read_text(encoding="utf-8").split("\n", 1)[0]
        if found is not None:
            found.encode("utf-8")
    except OSError as fault:
        raise BadPassword(f"{named}: {fault.strerror}") from None
    except UnicodeError:
        raise BadPassword(f"{named} is no UTF-8") from None
    if found == "":
        raise BadPassword(f"{named} {'is empty' if file is None else 'has an empty first line'}, and so no password")
    return found


def fault_of_url(url: str) -> str:
    """What is wrong with the words of a URL, or nothing."""
    try:
        said = urlsplit(url)
        if said.scheme not in ("redis", "rediss", "unix"):
            return "it begins with redis://, rediss:// or unix://"
        if said.password is not None or "password" in parse_qs(said.query):
            return f"a password is not given in the words, which others can read: set {VARIABLE}, or name a file with --password-file"
        pool: Any = redis.ConnectionPool.from_url(url)
        pool.make_connection()  # which reaches no server
    except (ValueError, TypeError, redis.RedisError) as fault:
        return f"it is no URL of Redis: {fault}"
    return ""


def connected(url: str, part: Part, password: Optional[str] = None) -> Any:
    """A client for the server that has the part. Of a Redis Cluster it is the machine with the keys of the part. NoStore if none answers, and
    `redis.AuthenticationError` if the password is not right."""
    words: Dict[str, Any] = {"password": password, "socket_timeout": SECONDS, "socket_connect_timeout": SECONDS}
    try:
        client: Any = redis.Redis.from_url(url, **words)
        if client.info("cluster")["cluster_enabled"]:
            cluster: Any = RedisCluster.from_url(url, **words)
            client = cluster.get_redis_connection(cluster.get_node_from_key(part.lines))
    except redis.AuthenticationError:
        raise
    except (redis.RedisError, OSError) as fault:
        raise NoStore(f"Redis does not answer at {without_user(url)}: {fault}") from None
    return client


def without_user(url: str) -> str:
    """A URL without what stands before its host."""
    said = urlsplit(url)
    return said._replace(netloc=said.netloc.rpartition("@")[2], query="").geturl()
