"""The example that reads a spool: Debian's carbon-cache gets each value that a plugin printed, also over a kill of the monitor and a saved state."""
import json
import pathlib
import shutil
import socket
import subprocess
import sys
import time
from typing import Dict, List

from .running import MONITOR, ProcessTest
from .waiting import becomes_true

EXAMPLE = MONITOR.parent / "examples/spool_to_graphite.py"
CONFIGURATION = """[cache]
STORAGE_DIR = {0}/
CONF_DIR = {0}/
LOG_DIR = {0}/
PID_DIR = {0}/
LOCAL_DATA_DIR = {0}/whisper/
LINE_RECEIVER_INTERFACE = 127.0.0.1
LINE_RECEIVER_PORT = {1[0]}
PICKLE_RECEIVER_INTERFACE = 127.0.0.1
PICKLE_RECEIVER_PORT = {1[1]}
CACHE_QUERY_INTERFACE = 127.0.0.1
CACHE_QUERY_PORT = {1[2]}
MAX_CREATES_PER_MINUTE = inf
"""


def free_ports(count: int) -> List[int]:
    with_ports = [socket.socket() for _ in range(count)]
    for each in with_ports:
        each.bind(("127.0.0.1", 0))
    ports = [each.getsockname()[1] for each in with_ports]
    for each in with_ports:
        each.close()
    return ports


class Graphite(ProcessTest):
    def start_carbon(self) -> int:
        """Carbon with one value per second and series; returns its port."""
        self.carbon = self.folder / "carbon"
        self.carbon.mkdir()
        ports = free_ports(3)
        (self.carbon / "carbon.conf").write_text(CONFIGURATION.format(self.carbon, ports))
        (self.carbon / "storage-schemas.conf").write_text("[all]\npattern = .*\nretentions = 1s:1h\n")
        (self.carbon / "storage-aggregation.conf").write_text("[all]\npattern = .*\nxFilesFactor = 0\naggregationMethod = last\n")
        words = ["carbon-cache", f"--config={self.carbon}/carbon.conf", "--nodaemon", "start"]
        running = subprocess.Popen(words, stdout=subprocess.DEVNULL, stderr=subprocess.DEVNULL)
        self.addCleanup(running.wait)
        self.addCleanup(running.terminate)

        def is_there() -> bool:
            with socket.socket() as client:
                return client.connect_ex(("127.0.0.1", ports[0])) == 0

        self.assertTrue(becomes_true(is_there))
        return ports[0]

    def values(self, series: str) -> List[float]:
        """The values that Carbon has stored."""
        path = self.carbon / "whisper" / f"{series.replace('.', '/')}.wsp"
        if not path.exists():
            return []
        told = subprocess.run(["whisper-fetch", "--json", f"--from={int(time.time()) - 3000}", str(path)], stdout=subprocess.PIPE, check=True).stdout
        return [value for value in json.loads(told)["values"] if value is not None]

    def test_each_value_arrives(self) -> None:
        if shutil.which("carbon-cache") is None or shutil.which("whisper-fetch") is None:
            self.skipTest("graphite-carbon isn't here")
        port, spool = self.start_carbon(), self.folder / "spool"
        spool.mkdir()
        names: Dict[str, str] = {"h00": "nagsched.h00.host.n_1", "h00;a service": "nagsched.h00.a_service.n_1"}
        self.write_site(self.objects(1, check_interval=2), [{"host": "h00", "description": "a service", "check_interval": 3, "max_check_attempts": 1}])
        runs = {name: self.folder / f"{number}.runs" for number, name in enumerate(names)}
        self.write("commands.json", {name: {"line": f"echo x >> '{path}'; echo \"fine | 'n 1'=$(wc -l < '{path}')c;5;9 u=U\"", "shell": True}
                                     for name, path in runs.items()})
        for _ in range(2):
            running = self.start_monitor("--perfdata", str(spool))
            before = len(list(spool.iterdir()))
            self.assertTrue(becomes_true(lambda: len(list(spool.iterdir())) > before + 1))
            self.assertEqual(self.run_command("save").returncode, 0)
            running.kill()
            running.communicate()
        printed = {name: [float(number) for number in range(1, len(path.read_text().splitlines()) + 1)] for name, path in runs.items()}
        subprocess.run([sys.executable, str(EXAMPLE), str(spool), f"127.0.0.1:{port}"], check=True, timeout=60)
        self.assertEqual(list(spool.glob("perfdata.*")), [])
        for name, series in names.items():
            self.assertTrue(becomes_true(lambda: len(self.values(series)) > 4))
            time.sleep(1)
            came = self.values(series)
            # The monitor was killed twice: with the plugins that ran then, and before its last results were in the spool.
            self.assertEqual([number for number in printed[name][: int(came[-1])] if number not in came][1:], [], (name, came))
            self.assertEqual(sorted(set(came)), came)
            self.assertGreater(len(came), 4)
        self.assertEqual(sorted(path.name for path in pathlib.Path(self.carbon / "whisper/nagsched/h00/host").iterdir()), ["n_1.wsp"])
