"""The comparison of tools/beside-kernel: the answers of kernels, of the server, and of the device of kernel_device.py."""

from __future__ import annotations

import collections
import concurrent.futures
import subprocess
import tempfile
from typing import Counter, Dict, List, NamedTuple, Tuple

import kernels
from kernel_device import LEFT_OUT, KernelDevice
from kernel_scripts import REPOSITORY, Device, Modelled, Script, compared, is_event, modelled

from plain_device import Plain

SERVERS = 2


class Difference(NamedTuple):
    """A line to which a kernel and the server answer differently, and the files that explain it."""

    kernel: str
    script: str
    number: int
    line: str
    server: str
    answer: str
    files: Tuple[str, ...]


class Asked(NamedTuple):
    """Scripts of a device, and what the server answers to their lines, by the lines' numbers."""

    device: Device
    scripts: List[Script]
    server: List[Dict[int, str]]


class Result(NamedTuple):
    """The comparison of a device of a kernel with the server."""

    # the version of the kernel and, if it isn't the module, the driver
    kernel: str
    scripts: int
    lines: int
    left_out: Counter[str]
    explained: List[Difference]
    unexplained: List[Difference]
    # lines of examples/linux whose difference does not show, or is another one
    missing: List[str]

    def is_good(self) -> bool:
        return not self.unexplained and not self.missing


def find_program() -> str:
    """The server's program."""
    found = subprocess.run(
        [str(REPOSITORY / "drm_server"), "--program"], stdout=subprocess.PIPE, text=True, check=False
    )
    if found.returncode != 0:
        raise kernels.Lacking("can't find the program of the server: ./drm_server --program printed no path")
    return found.stdout.strip()


def server_answers(server: str, script: Script, words: List[str]) -> Dict[int, str]:
    """What the server answers to each line of a script, by the lines' numbers."""
    text = "".join(f"{line}\n" for line in script.lines)
    ran = subprocess.run([server, "run", *words], input=text, stdout=subprocess.PIPE, text=True, check=True)
    numbers = [number for number, line in enumerate(script.lines, 1) if is_event(line)]
    return dict(zip(numbers, ran.stdout.splitlines()))


def ask_server(device: Device, scripts: List[Script]) -> Asked:
    """Returns what the server answers to scripts of a device, each on its own device."""
    server = find_program()
    with tempfile.NamedTemporaryFile("w", suffix=".topology") as file:
        file.write(device.text)
        file.flush()
        words = ["--topology", file.name] if device.text else []
        with concurrent.futures.ThreadPoolExecutor(SERVERS) as pool:
            answers = pool.map(lambda script: server_answers(server, script, words), scripts)
            return Asked(device, scripts, list(answers))


def model_scripts(asked: Asked, series: str) -> List[Dict[int, Modelled]]:
    """What a kernel of this series is expected to answer to the scripts."""
    device = asked.device
    return [
        modelled(script, Plain(topology=device.topology), KernelDevice(series, device.topology, device.cursors))
        for script in asked.scripts
    ]


def kernel_answers(lines: List[str]) -> Dict[str, Dict[int, str]]:
    """What drm_script printed, by the names of scripts and the numbers of their lines."""
    found: Dict[str, Dict[int, str]] = {}
    current: Dict[int, str] = {}
    for line in lines:
        number, _, answer = line.partition(" ")
        if number == "=":
            current = found.setdefault(answer, {})
        elif number.isdigit():
            current[int(number)] = answer
    return found


def explanation(line: Modelled, server: str, answer: str) -> Tuple[str, ...]:
    """The files that explain an answer of a kernel, or none: if it is another one, or if the server's is not that of the rules."""
    if server != line.rules:
        return ()
    known = {compared(one) for one in line.answer.split(" or ")}
    return tuple(f"examples/linux/{file}.script" for file in line.files) if answer in known else ()


class Comparing:
    """A comparison on its way."""

    def __init__(self, kernel: str, series: str) -> None:
        self.series = series
        self.result = Result(kernel, 0, 0, collections.Counter(), [], [], [])

    def add_line(self, script: Script, number: int, model: Modelled, asked: str, answer: str) -> None:
        """Compares the answers to a line."""
        came, wanted, result = compared(answer), compared(asked), self.result
        if came.startswith(LEFT_OUT):
            result.left_out[came.partition(": ")[2]] += 1
            return
        self.result = result._replace(lines=result.lines + 1)
        if came != wanted or asked != model.rules:
            files = explanation(model, asked, came)
            found = Difference(result.kernel, script.name, number, script.lines[number - 1], asked, came, files)
            (result.explained if files else result.unexplained).append(found)
        if script.is_page:
            self.add_page_line(script, number, asked, came)

    def add_page_line(self, script: Script, number: int, asked: str, came: str) -> None:
        """Compares an answer with the one that a file of examples/linux expects of a kernel."""
        expected = script.expected_of(self.series)
        place = f"{script.name}:{number}"
        if came != compared(expected.get(number, asked)):
            self.result.missing.append(f"{place}: expected {expected.get(number, asked)}, got {came}")
        elif number in expected and came == compared(asked):
            self.result.missing.append(f"{place}: the difference does not show: {came}")

    def add(self, script: Script, model: Dict[int, Modelled], server: Dict[int, str], answers: Dict[int, str]) -> None:
        """Compares the answers to a script."""
        for number, asked in server.items():
            self.add_line(script, number, model[number], asked, answers.get(number, "no answer"))
        self.result = self.result._replace(scripts=self.result.scripts + 1)


def compare(kernel: str, series: str, asked: Asked, models: List[Dict[int, Modelled]], printed: List[str]) -> Result:
    """Compares what a kernel printed with what the server answers."""
    answers = kernel_answers(printed)
    comparing = Comparing(kernel, series)
    for script, model, server in zip(asked.scripts, models, asked.server):
        comparing.add(script, model, server, answers.get(script.name, {}))
    return comparing.result


# what is printed


def line_of(found: Difference) -> str:
    """A difference as a line."""
    why = ", ".join(found.files) or "NOT EXPLAINED"
    return f"{found.kernel}: {found.script}:{found.number}: {found.line}: server {found.server}, kernel {found.answer} ({why})"


def counts_of(result: Result) -> List[str]:
    """The counts of a comparison, as lines."""
    causes = collections.Counter(found.files[0] for found in result.explained)
    lines = [f"{count} differences by {cause}" for cause, count in sorted(causes.items())]
    lines += [f"{count} lines left out: {reason}" for reason, count in sorted(result.left_out.items())]
    summary = (
        f"{result.scripts} scripts, {result.lines} lines compared: {len(result.explained)} differences as expected,"
        f" {len(result.unexplained)} not explained, {len(result.missing)} expected ones missing"
    )
    return [f"{result.kernel}: {line}" for line in (*lines, summary)]


def print_result(result: Result, is_listed: bool) -> None:
    """Prints the differences that are no random script's, or all, and the counts."""
    for found in result.explained:
        if is_listed and not found.script.startswith("random"):
            print(line_of(found))
    for found in result.unexplained:
        print(line_of(found))
    for text in result.missing:
        print(f"{result.kernel}: {text}")
    print("\n".join(counts_of(result)), flush=True)
