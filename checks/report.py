#!/usr/bin/env python3
"""The page of examples/report.sh has the figures and the numbers that the lines of `show` give.

    python3 checks/report.py

The flow records of examples/web-exchange.pcap, of captures that are made here and of none, go through examples/report.sh, alone
and with their biflows and the summary of `meter`, each twice: the second page must be the same. Inputs in the wrong place, and a
summary of other records, must be refused. Each table of the page is compared with what this program
makes of the lines of `show`, and the heights of the bars in both figures with the table of steps. Headless chromium opens each
page, dark at the width of a phone and light at that of a desktop: what it shows must be the same, and no wider than its window.
PICTURES=FOLDER keeps pictures. It also prints the fullest page: pdftotext must find the heads of the sections and tables there, in
their order; where it is missing, the PDF must have pages and some size. Skipped with one line where a package is missing
(python3-ipfix, miller, gnuplot-nox; chromium; poppler-utils).
The status is 1 where anything differs. ROMTYALIG and ROMTYALIG_PAIR are the programs' paths (bin/romtyalig and
bin/romtyalig-pair unless set).
"""

import os
import random
import re
import shutil
import subprocess
import sys
import tempfile
from decimal import ROUND_HALF_EVEN, Decimal
from fractions import Fraction
from html.parser import HTMLParser
from ipaddress import IPv6Address
from pathlib import Path

sys.dont_write_bytecode = True

import generate  # noqa: E402

TOP = Path(__file__).resolve().parent.parent
PROGRAM = os.environ.get("ROMTYALIG", str(TOP / "bin" / "romtyalig"))
PAIR = os.environ.get("ROMTYALIG_PAIR", str(TOP / "bin" / "romtyalig-pair"))
PROTOCOLS = {1: "ICMP", 6: "TCP", 17: "UDP", 47: "GRE", 50: "ESP", 58: "ICMPv6"}
REASONS = {1: "idle time-out: nothing more came", 2: "active time-out: it went on", 3: "end detected: FIN or RST",
           4: "the capture ended"}
RANGES = [("0 ms", 1), ("under 10 ms", 10), ("under 100 ms", 100), ("under 1 s", 1000), ("under 10 s", 10_000),
          ("under 1 min", 60_000), ("under 5 min", 300_000), ("under 30 min", 1_800_000), ("30 min or more", 2**80)]
CAUSES = ("in the records", "neither IPv4 nor IPv6", "link or IP header not captured whole", "IP header contradicts itself",
          "TCP or UDP not captured up to ports and flags", "time with a fraction of a second or more")
START = 1_700_000_000_000


def ran(words: list, octets: bytes = b"") -> bytes:
    return subprocess.run(words, input=octets, stdout=subprocess.PIPE, stderr=subprocess.DEVNULL, check=True).stdout


def made_capture() -> bytes:
    """Some minutes of traffic of six protocols, with answers and without, over both IP versions."""
    chance, packets = random.Random(1), []
    for talk in range(400):
        six, kind = chance.random() < 0.2, chance.choice((6, 6, 6, 17, 17, 1, 47, 50, 132))
        ends = (f"2001:db8::{talk % 5 + 1:x}", "2001:db8:1::53") if six else (f"10.0.0.{talk % 23}", f"198.51.100.{talk % 7}")
        ports, time = (30_000 + talk, chance.choice((22, 53, 80, 443))), START + chance.randrange(400_000)
        for place in range(chance.choice((1, 2, 5, 30))):
            out = place % 2 == 0 or talk % 4 == 0
            data = bytes(chance.randrange(1200))
            there, used = (ends, ports) if out else (ends[::-1], ports[::-1])
            flags = 0x011 if place == 29 else 0x010
            body = {6: generate.segment(*used, flags, data), 17: generate.datagram(*used, data)}.get(kind, data)
            packets.append((time, (generate.raw6 if six else generate.raw4)(kind, *there, body)))
            time += chance.choice((0, 3, 50, 700, 9000))
    return generate.capture(sorted(packets, key=lambda packet: packet[0]), generate.RAW)


class Flow:
    """A line of `show`."""

    def __init__(self, line: str) -> None:
        fields = dict(field.split("=") for field in line.split()[1:])
        addresses = [fields.get("8"), fields.get("12")]
        if addresses[0] is None:
            addresses = [str(IPv6Address(bytes.fromhex(fields[number]))) for number in ("27", "28")]
        self.source, self.destination = addresses
        self.ports = int(fields["7"]), int(fields["11"])
        self.name = PROTOCOLS.get(int(fields["4"]), f"protocol {fields['4']}")
        self.flags = int(fields["6"])
        numbers = [int(fields[number]) for number in ("2", "1", "152", "153", "136")]
        self.packets, self.octets, self.first, self.last, self.reason = numbers
        self.back = {n: int(fields[f"29305.{n}"], 16) for n in (2, 1, 152) if f"29305.{n}" in fields}


def flows_of(stream: bytes) -> list[Flow]:
    return [Flow(line) for line in ran([PROGRAM, "show"], stream).decode().splitlines()]


def sums(flows: list[Flow], label) -> list[tuple[str, int, int]]:
    """The ten labels with most octets."""
    found: dict[str, list[int]] = {}
    for flow in flows:
        if label(flow):
            entry = found.setdefault(label(flow), [0, 0])
            entry[0] += flow.octets
            entry[1] += flow.packets
    return sorted(((name, *both) for name, both in found.items()), key=lambda row: (-row[1], row[0]))[:10]


def ranges(values: list[tuple[int, int]]) -> list[tuple[str, int, int]]:
    rows = [[name, 0, 0] for name, _ in RANGES]
    for time, octets in values:
        place = next(place for place, (_, end) in enumerate(RANGES) if time < end)
        rows[place][1] += 1
        rows[place][2] += octets
    return [tuple(row) for row in rows]


def reasons(flows: list[Flow]) -> list[tuple[str, int, int]]:
    found = {reason: [flow.octets for flow in flows if flow.reason == reason] for reason in {flow.reason for flow in flows}}
    order = sorted(found, key=lambda reason: (-len(found[reason]), reason))
    return [(REASONS[reason], len(found[reason]), sum(found[reason])) for reason in order]


def conversation(flow: Flow) -> str:
    return " and ".join(sorted((flow.source, flow.destination)))


def port(flow: Flow) -> str:
    return f"{flow.name} port {min(flow.ports)}" if flow.name in ("TCP", "UDP") else ""


def later_fragment(flow: Flow) -> bool:
    """Records of TCP and UDP without ports are those of later IP fragments."""
    return flow.name in ("TCP", "UDP") and flow.ports == (0, 0)


def one_way_kind(flow: Flow) -> str:
    if later_fragment(flow):
        return "one-way later IP fragments"
    if flow.name == "TCP" and not flow.flags & 2:
        return "one-way TCP without SYN"
    return "not answered"


def protocols(flows: list[Flow]) -> list[tuple]:
    whole, rows = sum(flow.octets for flow in flows), []
    for name in {flow.name for flow in flows}:
        these = [flow for flow in flows if flow.name == name]
        octets = sum(flow.octets for flow in these)
        share = (Decimal(100 * octets) / whole).quantize(Decimal("0.1"), ROUND_HALF_EVEN)
        rows.append((name, len(these), sum(flow.packets for flow in these), octets, f"{share}%"))
    return sorted(rows, key=lambda row: (-row[3], row[0]))


def biflow(flow: Flow) -> str:
    if flow.name not in ("TCP", "UDP") or later_fragment(flow):
        return f"{flow.source} to {flow.destination} ({flow.name})"
    ends = [f"[{address}]" if ":" in address else address for address in (flow.source, flow.destination)]
    return f"{ends[0]}:{flow.ports[0]} to {ends[1]}:{flow.ports[1]} ({flow.name})"


def tables_of(flows: list[Flow], biflows: list[Flow] | None, causes: list[int] | None) -> dict[str, list[tuple]]:
    """The rows that each table of the page is to have. The causes are the numbers of packets in the records and left out."""
    tables = {
        "protocols": protocols(flows),
        "talkers": sums(flows, lambda flow: flow.source),
        "conversations": sums(flows, conversation),
        "ports": sums(flows, port),
        "reasons": reasons(flows),
        "lengths": ranges([(flow.last - flow.first, flow.octets) for flow in flows]),
    }
    if biflows is not None:
        both = [flow for flow in biflows if flow.back]
        kinds = [one_way_kind(flow) for flow in biflows if not flow.back]
        rows = ("not answered", "one-way TCP without SYN", "one-way later IP fragments")
        tables["answered"] = [("answered", len(both)), *((kind, kinds.count(kind)) for kind in rows)]
        tables["delays"] = ranges([(flow.back[152] - flow.first, flow.octets + flow.back[1]) for flow in both])
        most = sorted(both, key=lambda flow: (-flow.octets - flow.back[1], biflow(flow)))[:10]
        tables["biflows"] = [(biflow(flow), flow.octets, flow.back[1]) for flow in most]
    if causes is not None:
        tables["capture"] = list(zip(CAUSES, causes))
    return tables


class Page(HTMLParser):
    """The text of the cells of each table by its id, the three totals, the bars of each figure: heights by group, and the heads
    that are printed: of sections and tables, without those of the steps, which stand behind a word to click on."""

    def __init__(self, text: str) -> None:
        super().__init__()
        self.tables: dict[str, list[list[str]]] = {}
        self.totals: dict[str, int] = {}
        self.said: dict[str, str] = {}
        self.bars: dict[str, list[list[float]]] = {}
        self.heads: list[str] = []
        self.table = self.figure = self.total = None
        self.in_details = self.in_head = False
        self.in_cell = False
        self.feed(text)

    def handle_starttag(self, tag: str, attributes: list) -> None:
        given = dict(attributes)
        if tag == "table":
            self.table = self.tables.setdefault(given["id"], [])
        elif tag == "tr" and self.table is not None:
            self.table.append([])
        elif tag == "details":
            self.in_details = True
        elif tag in ("h2", "th") and not self.in_details:
            self.in_head = True
            self.heads.append("")
        elif tag == "td":
            self.in_cell = True
            self.table[-1].append("")
        elif tag in ("b", "dd") and "id" in given:
            self.total = given["id"]
        elif tag == "g" and re.fullmatch(r"(octets|packets)_plot_\d+.*", given.get("id", "")):
            self.figure = self.bars.setdefault(given["id"].split("_")[0], [])
            self.figure.append([])
        elif tag == "polygon" and self.figure is not None:
            heights = [float(point.split(",")[1]) for point in given["points"].split()]
            self.figure[-1].append(max(heights) - min(heights))

    def handle_endtag(self, tag: str) -> None:
        self.total = None if tag in ("b", "dd") else self.total
        self.in_cell = self.in_cell and tag != "td"
        self.in_head = self.in_head and tag not in ("h2", "th")
        self.in_details = self.in_details and tag != "details"
        if tag == "svg":
            self.figure = None

    def handle_data(self, data: str) -> None:
        if self.total in ("mean", "peak", "time-outs"):
            self.said[self.total] = self.said.get(self.total, "") + data
        elif self.total:
            self.totals[self.total] = int(data.replace(",", ""))
            self.total = None
        elif self.in_cell:
            self.table[-1][-1] += data
        elif self.in_head:
            self.heads[-1] += data

    def rows(self, name: str) -> list[tuple]:
        """The rows of a table of bars: a label and numbers."""
        rows = [row for row in self.tables.get(name, []) if row]
        return [(row[0], *(cell if "%" in cell else int(cell.replace(",", "")) for cell in row[1:] if cell)) for row in rows]

    def steps(self) -> list[tuple[str, list[Fraction]]]:
        return [(row[0], [Fraction(cell) for cell in row[1:]]) for row in self.tables.get("steps", []) if row]


def step_of(flows: list[Flow], count: int) -> int:
    """The length of a step in milliseconds, from the first and the number of steps: told by the page's own table."""
    span = max(flow.last for flow in flows) - min(flow.first for flow in flows)
    lengths = [head * 10**zeros for zeros in range(4) for head in (1, 2, 5)] + [10_000, 15_000, 30_000, 60_000]
    step = next(length for length in lengths if span // length < 60)
    assert count <= 61
    return step


def spread(flows: list[Flow], start: int, step: int, count: int) -> list[list[Fraction]]:
    """Octets and packets of each step by protocol, spread evenly over each flow's time."""
    order = [name for name, _, _ in sums(flows, lambda flow: flow.name)]
    names = order if len(order) < 5 else order[:4]
    columns = len(names) + (len(order) > 4)
    rows = [[Fraction(0)] * (2 * columns) for _ in range(count)]
    for flow in flows:
        column = 2 * (names.index(flow.name) if flow.name in names else columns - 1)
        for place in range((flow.first - start) // step, (flow.last - start) // step + 1):
            begin, end = max(flow.first, start + place * step), min(flow.last, start + (place + 1) * step)
            share = Fraction(end - begin, flow.last - flow.first) if flow.last > flow.first else Fraction(1)
            rows[place][column] += share * flow.octets
            rows[place][column + 1] += share * flow.packets
    return rows


def time_fault(page: Page, flows: list[Flow]) -> str:
    """What is wrong with the steps and the figures."""
    found = page.steps()
    step = step_of(flows, len(found))
    wanted = spread(flows, min(flow.first for flow in flows) // step * step, step, len(found))
    for (_, here), there in zip(found, wanted):
        if len(here) != len(there) or any(abs(one - two) > Fraction(1, 50) for one, two in zip(here, there)):
            return "steps"
    for kind, first in (("octets", 0), ("packets", 1)):
        count = len(wanted[0]) // 2
        groups = page.bars.get(kind, [])
        if len(groups) != count:
            return f"figure of {kind}: {len(groups)} groups"
        totals = [[sum(row[first:first + 2 * upto:2]) for row in wanted] for upto in range(count, 0, -1)]
        scale = max(groups[0]) / float(max(totals[0]))
        for heights, values in zip(groups, totals):
            drawn = [float(value) * scale for value in values if value >= Fraction(1, 200)]
            if len(heights) != len(drawn) or any(abs(one - two) > 0.6 for one, two in zip(heights, drawn)):
                return f"figure of {kind}"
    return ""


def rate_differs(said: str, octets: Fraction, milliseconds: int) -> bool:
    """Whether a rate with three digits isn't that of so many octets in so long a time."""
    number, unit = said.split()
    scale = {"bit/s": 1, "kbit/s": 10**3, "Mbit/s": 10**6, "Gbit/s": 10**9}[unit]
    rate = octets * 8000 / milliseconds
    return abs(Fraction(number) * scale - rate) > rate / 150 or len(number.replace(".", "").lstrip("0")) > 3


def rates_fault(page: Page, flows: list[Flow]) -> str:
    """What is wrong with the mean and the peak rate."""
    first, last = min(flow.first for flow in flows), max(flow.last for flow in flows)
    octets = sum(flow.octets for flow in flows)
    if last == first:
        return "rates of a moment" if {"mean", "peak"} & set(page.said) else ""
    if rate_differs(page.said["mean"], Fraction(octets), last - first):
        return f"mean rate {page.said['mean']}"
    step = step_of(flows, len(page.steps()))
    most = max(sum(row[::2]) for row in spread(flows, first // step * step, step, len(page.steps())))
    if most * (last - first) < octets * step:
        return "a peak below the mean" if "peak" in page.said else ""
    return f"peak rate {page.said['peak']}" if rate_differs(page.said["peak"], most, step) else ""


def words_fault(text: str, flows: list[Flow]) -> str:
    """Whether one of a thing has the singular."""
    plain = re.sub(r"<[^>]*>", "", text)
    for count, noun in ((sum(flow.packets for flow in flows), "packet"), (len(flows), "flow record")):
        wanted = f"{count:,} {noun}" + ("s" if count != 1 else "")
        if not re.search(rf"(?m)^{wanted}$", plain):
            return f"no line {wanted!r}"
    return ""


def fault_of(text: str, flows: list[Flow], biflows: list[Flow] | None, causes: list[int] | None = None) -> str:
    """What is wrong with a page, or nothing."""
    page = Page(text)
    if not flows:
        return "" if "no flow records" in text else "says nothing of no records"
    totals = {"octets": sum(flow.octets for flow in flows), "packets": sum(flow.packets for flow in flows), "flows": len(flows)}
    if page.totals != totals:
        return f"totals {page.totals}"
    tables = tables_of(flows, biflows, causes)
    for name, rows in tables.items():
        if page.rows(name) != rows:
            return f"table {name}"
    if set(page.tables) != set(tables) | {"steps"}:
        return f"tables {sorted(page.tables)}"
    return rates_fault(page, flows) or time_fault(page, flows)


def browser(words: list[str], folder: Path) -> bytes:
    return ran(["chromium", "--headless", "--no-sandbox", "--disable-gpu", "--hide-scrollbars",
                f"--user-data-dir={folder}/browser", *words])


def browser_fault(path: Path, flows: list[Flow], biflows: list[Flow] | None, causes: list[int] | None, folder: Path) -> str:
    """What is wrong with a page as the browser has it."""
    wide = folder / "wide.html"
    script = "<script>document.title = document.documentElement.scrollWidth + ' ' + innerWidth</script>"
    wide.write_text(path.read_text() + script)
    for width, scheme in ((390, "dark"), (1280, "light")):
        words = [f"--window-size={width},2400", f"--blink-settings=preferredColorScheme={('dark', 'light').index(scheme)}"]
        text = browser([*words, "--dump-dom", wide.as_uri()], folder).decode()
        fault = fault_of(text, flows, biflows, causes)
        told = re.search(r"<title>(\d+) (\d+)</title>", text)
        if fault or told is None or int(told[1]) > int(told[2]):
            return f"in the browser, {width} wide: {fault or 'wider than its window'}"
        if os.environ.get("PICTURES"):
            picture = Path(os.environ["PICTURES"]).resolve() / f"{path.stem}-{width}-{scheme}.png"
            browser([*words, f"--screenshot={picture}", path.as_uri()], folder)
    return ""


def print_fault(path: Path, folder: Path) -> str:
    """What is wrong with a page as the browser prints it."""
    printed = folder / "printed.pdf"
    browser([f"--print-to-pdf={printed}", "--no-pdf-header-footer", path.as_uri()], folder)
    octets = printed.read_bytes()
    # A page without sections is a PDF of some 20,000 octets.
    if not re.search(rb"/Type */Page\b", octets) or len(octets) < 50_000:
        return "printed: no pages, or too small a file"
    if shutil.which("pdftotext"):
        text, at = "".join(ran(["pdftotext", "-layout", printed, "-"]).decode().split()), 0
        for head in Page(path.read_text()).heads:
            found = text.find("".join(head.split()), at)
            if found < 0:
                return f"printed: no head {head!r} in its place"
            at = found + len("".join(head.split()))
    return ""


def refused(words: list, status: int, line: str) -> str:
    """Whether report.sh refuses these words with this status and one line that has these words, and writes nothing."""
    done = subprocess.run([TOP / "examples" / "report.sh", *words], capture_output=True, check=False, text=True)
    good = done.returncode == status and not done.stdout and line in done.stderr and done.stderr.count("\n") == 1
    return "" if good else f"status {done.returncode}, {done.stderr.strip()!r}"


def refusals(folder: Path) -> int:
    """Inputs in the wrong place, and a summary of other records, by the streams of the last capture. How many aren't refused."""
    flows, biflows, summary = folder / "flows", folder / "biflows", folder / "summary"
    other = folder / "other"
    other.write_text(re.sub(r"(?m)^octets .*", "octets 7", summary.read_text()))
    rows = [("biflows as flows", [biflows], 1, "stream of biflows; the first input"), ("flows as biflows", [flows, flows], 1, "no stream of biflows"),
            ("another summary", [flows, "-", other], 1, "isn't of"), ("no summary", [flows, "-", flows], 1, "no line 'captured'"),
            ("a time-out of 0", ["--idle", "0", flows], 2, "1 to 86400"), ("no such option", ["--titel", "a", flows], 2, "--titel")]
    differs = 0
    for name, words, status, line in rows:
        fault = refused(words, status, line)
        print(f"DIFFERS: {name}: {fault}" if fault else f"same: {name} refused")
        differs += bool(fault)
    return differs


def fragments_capture() -> bytes:
    """Records that no answer can be told of: a last ACK, later IP fragments, and requests with and without an answer."""
    one, two = "10.0.0.1", "10.0.0.2"
    later = generate.raw4(17, one, two, bytes(40), fragment=100)
    packets = [generate.raw4(6, one, two, generate.segment(4000, 80, 0x010, b"")), later,
               generate.raw4(6, one, two, generate.segment(4001, 80, 0x002, b"")), generate.raw4(17, one, two, generate.datagram(9, 53, b"")),
               generate.raw4(1, one, two, bytes(8)), generate.raw4(1, two, one, bytes(8)),
               generate.raw4(17, two, one, generate.datagram(7, 99, b"")), generate.raw4(17, one, two, generate.datagram(99, 7, b""))]
    return generate.capture([(START + 40 * number, packet) for number, packet in enumerate(packets)], generate.RAW)


def main() -> None:
    for needed, package in (("ipfix2csv", "python3-ipfix"), ("mlr", "miller"), ("gnuplot", "gnuplot-nox")):
        if not shutil.which(needed):
            print(f"skipped: no {needed} (package {package})")
            return
    opens = shutil.which("chromium") is not None
    if not opens:
        print("skipped: the pages in a browser and in print, no chromium")
    elif not shutil.which("pdftotext"):
        print("skipped: the heads in print, no pdftotext (package poppler-utils)")
    differs = 0
    captures = {"web-exchange": (TOP / "examples" / "web-exchange.pcap").read_bytes(), "made": made_capture(),
                "nothing": generate.capture([]),
                "one": generate.capture([(START, generate.raw4(17, "10.0.0.1", "10.0.0.2", generate.datagram(7, 9, b"")))], generate.RAW),
                "fragments": fragments_capture()}
    with tempfile.TemporaryDirectory() as name:
        folder = Path(name)
        for what, capture in captures.items():
            with open(folder / "summary", "wb") as summary:
                done = subprocess.run([PROGRAM, "meter"], input=capture, stdout=subprocess.PIPE, stderr=summary, check=True)
            (folder / "flows").write_bytes(done.stdout)
            counts = dict(line.split() for line in (folder / "summary").read_text().splitlines())
            every = [int(counts[name]) for name in ("accepted", "not-ip", "short", "bad-header", "short-transport", "bad-time")]
            (folder / "biflows").write_bytes(ran([PAIR, "pair"], (folder / "flows").read_bytes()))
            flows, biflows = (flows_of((folder / stream).read_bytes()) for stream in ("flows", "biflows"))
            for both in (False, True):
                causes = every if both else None
                page = folder / f"{what}{'-biflows' if both else ''}.html"
                streams = [folder / "flows", folder / "biflows", folder / "summary"][:3 if both else 1]
                page.write_bytes(ran([TOP / "examples" / "report.sh", *streams]))
                fault = fault_of(page.read_text(), flows, biflows if both else None, causes)
                if not fault and flows:
                    fault = words_fault(page.read_text(), flows)
                if not fault and ran([TOP / "examples" / "report.sh", *streams]) != page.read_bytes():
                    fault = "another page in a second run"
                if not fault and opens:
                    fault = browser_fault(page, flows, biflows if both else None, causes, folder)
                print(f"DIFFERS: {page.stem}: {fault}" if fault else f"same: {page.stem}, records {len(flows)}")
                differs += bool(fault)
        differs += refusals(folder)
        if opens:
            fault = print_fault(folder / "made-biflows.html", folder)
            print(f"DIFFERS: made-biflows: {fault}" if fault else "same: made-biflows in print")
            differs += bool(fault)
    sys.exit(1 if differs else 0)


if __name__ == "__main__":
    main()
