"""Three nodes of RabbitMQ on loopback, with ports, data and a cookie of their own."""

from __future__ import annotations

import dataclasses
import glob
import json
import os
import pathlib
import secrets
import shutil
import signal
import subprocess
import typing

from tests.common import desk
from tests.common.ports import free_ports
from tests.several.programs import Failure, Program, Programs, is_listening, wait_until

ROOT = pathlib.Path(desk.ROOT)
CONFIG = ROOT / "examples" / "broker" / "rabbitmq.conf"
PAGE = ROOT / "docs" / "SEVERAL.md"
COUNT = 3
# What the example has for three machines, for three nodes of this one. The delay is for nodes that
# start at the same moment.
OWN_CONFIG = """
cluster_formation.classic_config.nodes.1 = b1@localhost
cluster_formation.classic_config.nodes.2 = b2@localhost
cluster_formation.classic_config.nodes.3 = b3@localhost
cluster_formation.randomized_startup_delay_range.min = 0
cluster_formation.randomized_startup_delay_range.max = 1
disk_free_limit.absolute = 50MB
"""


def scripts() -> str:
    """The folder of the broker's own scripts: Debian's wrappers switch to the system's account."""
    found = sorted(glob.glob("/usr/lib/rabbitmq/lib/rabbitmq_server-*/sbin"))
    if not found:
        raise Failure("rabbitmq-server is missing: install Debian's package of that name")
    return found[-1]


@dataclasses.dataclass(frozen=True)
class Queue:
    """What the broker tells of a queue: its leader's number, and how many replicas are there."""

    leader: int
    replicas: int
    messages: int

    @classmethod
    def of(cls, row: dict[str, typing.Any]) -> Queue:
        # without a leader the columns are empty texts
        leader = int(row["leader"][1]) - 1 if row["leader"] else -1
        return cls(leader, len(row["online"]), int(row["messages"] or 0))


class Cluster:
    """The nodes, and the answers of their `rabbitmqctl`."""

    def __init__(self, folder: pathlib.Path, started: Programs, count: int = COUNT) -> None:
        self._folder, self._started, self._scripts = folder, started, scripts()
        self._epmd_port, *ports = free_ports(1 + 2 * count)
        self.ports, self._links = ports[:count], ports[count:]
        self._write_files()
        self.nodes = [self._node(number) for number in range(count)]

    def _write_files(self) -> None:
        (self._folder / "home").mkdir()
        cookie = self._folder / "home" / ".erlang.cookie"
        cookie.write_text(secrets.token_hex(16))
        cookie.chmod(0o400)
        (self._folder / "conf.d").mkdir()
        (self._folder / "conf.d" / "50-own.conf").write_text(OWN_CONFIG)
        (self._folder / "plugins").write_text("[].\n")

    def _environment(self, number: int) -> dict[str, str]:
        home = self._folder / f"b{number + 1}"
        return {
            "PATH": os.environ["PATH"],
            "LANG": "C.UTF-8",
            "HOME": str(self._folder / "home"),
            "ERL_EPMD_PORT": str(self._epmd_port),
            "ERL_EPMD_ADDRESS": "127.0.0.1",
            "RABBITMQ_NODENAME": f"b{number + 1}@localhost",
            "RABBITMQ_NODE_IP_ADDRESS": "127.0.0.1",
            "RABBITMQ_NODE_PORT": str(self.ports[number]),
            "RABBITMQ_DIST_PORT": str(self._links[number]),
            "RABBITMQ_MNESIA_BASE": str(home / "data"),
            "RABBITMQ_LOG_BASE": str(home / "log"),
            "RABBITMQ_ENABLED_PLUGINS_FILE": str(self._folder / "plugins"),
            "RABBITMQ_CONFIG_FILE": str(CONFIG),
            "RABBITMQ_CONFIG_FILES": str(self._folder / "conf.d"),
            "RABBITMQ_CONF_ENV_FILE": "/dev/null",
            # the script becomes the broker: the id that is killed is the broker's own
            "RUNNING_UNDER_SYSTEMD": "true",
            "RABBITMQ_SERVER_ADDITIONAL_ERL_ARGS":
                "+S 2:2 -kernel inet_dist_use_interface {127,0,0,1}",
        }

    def _install(self) -> None:
        """Debian's package starts each node as it is installed, by itself and without settings. A
        node that has data of such a run joins no other, so the page has them removed."""
        is_removed = "rm -rf /var/lib/rabbitmq/mnesia" in PAGE.read_text("utf-8")
        for number in range(len(self.nodes)):
            home = self._folder / f"b{number + 1}"
            none = {"RABBITMQ_CONFIG_FILE": str(home / "none"), "RABBITMQ_CONFIG_FILES": str(home)}
            alone = self._node(number, "alone", none)
            alone.start()
            self.wait_for(number)
            alone.end(signal.SIGTERM)
            if is_removed:
                shutil.rmtree(home / "data")

    def _node(self, number: int, suffix: str = "", more: dict[str, str] | None = None) -> Program:
        home = self._folder / f"b{number + 1}"
        for name in ("data", "log"):
            (home / name).mkdir(parents=True, exist_ok=True)
        words = [os.path.join(self._scripts, "rabbitmq-server")]
        environment = self._environment(number) | (more or {})
        # a broker that fails leaves a dump in the folder that it runs in
        log = home / f"out{suffix}"
        return self._started.add(Program(f"b{number + 1}{suffix}", words, environment, log, home))

    def start(self, as_installed: bool = False) -> None:
        epmd = shutil.which("epmd")
        if epmd is None:
            raise Failure("epmd is missing: it comes with Debian's package erlang-base")
        words = [epmd, "-port", str(self._epmd_port), "-address", "127.0.0.1"]
        log = self._folder / "epmd.out"
        self._started.add(Program("epmd", words, self._environment(0), log)).start()
        if as_installed:
            self._install()
        for node in self.nodes:
            node.start()
        for number in range(len(self.nodes)):
            self.wait_for(number)
        self.control("await_online_nodes", str(len(self.nodes)))

    def wait_for(self, number: int) -> float:
        """Waits until the node takes connections."""
        port = self.ports[number]
        return wait_until(f"b{number + 1} listens", lambda: is_listening(port), 300)

    def kill(self, number: int) -> None:
        self.nodes[number].end(signal.SIGKILL)

    def control(self, *words: str, given: str = "") -> str:
        """What `rabbitmqctl` answers, asked of the first node that can: one may be starting."""
        whole, said = [os.path.join(self._scripts, "rabbitmqctl"), "-q", *words], ""
        for number, node in enumerate(self.nodes):
            if node.is_running():
                ran = subprocess.run(
                    whole,
                    env=self._environment(number),
                    input=given,
                    capture_output=True,
                    text=True,
                    timeout=300,
                    check=False,
                )
                if ran.returncode == 0:
                    return ran.stdout
                said = (ran.stderr or ran.stdout)[:300]
        raise Failure(f"rabbitmqctl {words[0]}: {said}")

    def queues(self) -> dict[str, Queue]:
        columns = ("name", "leader", "online", "messages")
        rows = json.loads(self.control("list_queues", *columns, "--formatter", "json"))
        return {row["name"]: Queue.of(row) for row in rows}

    def addresses(self) -> str:
        return ",".join(f"127.0.0.1:{port}" for port in self.ports)
