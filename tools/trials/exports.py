"""Each node of the examples in each form of export, beside what the plan itself says of it.

The C source must compile as C99 without a warning, and a program that takes it in must find each row, the pool and each
record in it; its lines have at most 100 columns, and one source takes in those of all nodes. The script must be one by
sh -n, and with a function in place of mctp it must call it with just the words that the plan gives, also where all that
it adds is there already. Over I3C only provisioned IDs are neighbours. The script for mctpd must write the configuration
and call busctl with just the words that the plan gives, and a device tree have a controller for each bus of the node. The
answers must be cut into parts that begin where the one before ends, and together be the entries of the rows; the records
must be those by place, joined. Names that a shell or C would read otherwise are tried besides. It needs a C compiler (cc),
and says where that is missing.
"""
import json
import pathlib
import re
import shutil
import subprocess
import tomllib

from runner import RISER, TOP, kind_of

# the bindings of SMBus and I2C, and of I3C
SMBUS, I3C = 1, 6
C_PROGRAM = """#include "node.c"
#include <stdio.h>

int main(void) {{
    printf("%u %u %u %u\\n", {id}_unit, {id}_eid, {id}_pool_first, {id}_pool_size);
    for (size_t i = 0; i < {id}_row_count; i++) {{
        const struct mctpplan_row *row = &{id}_rows[i];
        printf("row %u %u %u %u ", row->first, row->size, row->port, row->next_eid);
        for (uint8_t j = 0; j < row->address_length; j++) printf("%02x", row->address[j]);
        printf("\\n");
    }}
{records}    return 0;
}}
"""
C_RECORDS = """    printf("tid %u size %u\\n", {id}_tid, (unsigned)sizeof {id}_repository);
    for (size_t i = 0; i < {id}_record_count; i++) {{
        const struct mctpplan_record *record = &{id}_records[i];
        printf("record %lu ", (unsigned long)record->handle);
        for (uint32_t j = 0; j < record->length; j++) printf("%02x", {id}_repository[record->offset + j]);
        printf("\\n");
    }}
"""


def cleaned(name):
    """A name as it begins an identifier."""
    name = "".join(it if it.isascii() and it.isalnum() else "_" for it in name)
    return name if name[0].isalpha() else "node_" + name


class Node:
    """What a plan and its certificate say of a node."""

    def __init__(self, plan, certificate, node):
        self.plan, self.node, self.name = plan, node, node["name"]
        self.nodes = {it["name"]: it for it in plan["nodes"]}
        self.buses = {it["name"]: it for it in plan["buses"]}
        self.rows = sorted(node["rows"], key=lambda row: row["first"])
        places = next((it["places"] for it in certificate["places"] if it["node"] == self.name), [])
        listed = node["terminus"]["records"] if node["terminus"] else []
        self.records = [listed[places.index(place)] for place in range(len(listed))]

    def bus(self, row):
        return self.node["ports"][row["port"]]["bus"]

    def address(self, row):
        ports = self.nodes[row["next"]]["ports"]
        return bytes.fromhex(next(it["address"] for it in ports if it["bus"] == self.bus(row)))

    def lacks_pid(self, row):
        return self.buses[self.bus(row)]["binding"] == I3C and len(self.address(row)) not in (0, 6)

    def id(self):
        return cleaned(self.name)

    def told_in_c(self):
        """What the program in C prints."""
        pool = self.node["pool"] or {"first": 0, "size": 0}
        yield f"{self.plan.get('unit', 64)} {self.node['eid']} {pool['first']} {pool['size']}"
        for row in self.rows:
            yield f"row {row['first']} {row['size']} {row['port']} {self.nodes[row['next']]['eid']} {self.address(row).hex()}"
        if self.node["terminus"]:
            yield f"tid {self.node['terminus']['tid']} size {sum(len(it['bytes']) // 2 for it in self.records)}"
            for record in self.records:
                yield f"record {record['handle']} {record['bytes'].lower()}"

    def commands(self, devices):
        """The words with which the script calls mctp."""
        buses = [it for it in self.buses if any(port["bus"] == it for port in self.node["ports"])]
        device = lambda bus: devices.get(bus, bus)
        for bus in buses:
            yield f"link set {device(bus)} up"
            yield f"link set {device(bus)} mtu {self.plan.get('unit', 64) + 4}"
        yield from (f"addr add {self.node['eid']} dev {device(bus)}" for bus in buses)
        for row in self.rows:
            last = row["first"] + row["size"] - 1
            yield f"route add {row['first'] if row['size'] == 1 else str(row['first']) + '-' + str(last)} via {device(self.bus(row))}"
        for row in self.rows:
            address = [it >> 1 if self.buses[self.bus(row)]["binding"] == SMBUS else it for it in self.address(row)]
            for eid in range(row["first"], row["first"] + row["size"]) if address and not self.lacks_pid(row) else ():
                yield f"neigh add {eid} dev {device(self.bus(row))} lladdr 0x" + ":".join(f"{it:02x}" for it in address)

    def lines_of(self, bus, address):
        """An address on a bus as Linux has it, and whether Linux can take it."""
        binding = self.buses[bus]["binding"]
        return [it >> 1 if binding == SMBUS else it for it in address], bool(address) and (binding != I3C or len(address) == 6)

    def daemon(self, devices):
        """The mode of mctpd and the endpoint IDs that it gives by itself, and the words with which the script calls busctl."""
        pool = self.node["pool"]
        yield ("bus-owner", [pool["first"], pool["first"] + pool["size"] - 1]) if pool else ("endpoint", None)
        own = {it["bus"] for it in self.node["ports"]}
        for child in filter(lambda it: it["owner"] == self.name, self.plan["nodes"]):
            port = next(it for it in child["ports"] if it["bus"] in own)
            first = next(it for it in child["ports"] if it["bus"] == port["bus"])
            address, is_known = self.lines_of(port["bus"], bytes.fromhex(first["address"]))
            at = f"/au/com/codeconstruct/mctp1/interfaces/{devices.get(port['bus'], port['bus'])} au.com.codeconstruct.MCTP.BusOwner1"
            words = f"{len(address)} {' '.join(f'0x{it:02x}' for it in address)} {child['eid']}"
            if is_known:
                yield f"call au.com.codeconstruct.MCTP1 {at} AssignEndpointStatic ayy {words}"

    def tree(self, labels):
        """The controllers of the device tree: the label of each, and the node's address there, where it needs one."""
        for bus in dict.fromkeys(it for it in self.buses if any(port["bus"] == it for port in self.node["ports"])):
            first = next(it for it in self.node["ports"] if it["bus"] == bus)
            address, is_known = self.lines_of(bus, bytes.fromhex(first["address"]))
            label = cleaned(labels.get(bus, bus))
            if self.buses[bus]["binding"] == SMBUS and is_known:
                yield label, "".join(f"{it:02x}" for it in address)
            elif self.buses[bus]["binding"] == I3C:
                yield label, None

    def entries(self):
        """The entries of the rows: their bytes."""
        for row in self.rows:
            next_node, bus = self.nodes[row["next"]], self.buses[self.bus(row)]
            own, end = next_node["eid"], row["first"] + row["size"]
            parts = [(row["first"], row["size"], 0)]
            if next_node["kind"] == "bridge":
                parts = [(row["first"], row["size"], 3)]
                if row["first"] <= own < end:
                    before = [(row["first"], own - row["first"], 3)] if own > row["first"] else []
                    parts = [*before, (own, end - own, 2 if end - own == 1 else 1)]
            for first, size, kind in parts:
                address = self.address(row)
                yield bytes([size, first, 64 * kind + row["port"], bus["binding"], bus["media"], len(address)]) + address

    def answers(self):
        """The messages that tell the entries: as many in each as fit 58 bytes."""
        entries, start = [*self.entries()], 0
        while True:
            count = 0
            while start + count < len(entries) and sum(map(len, entries[start : start + count + 1])) <= 58:
                count += 1
            end = start + count
            yield (bytes([0, 0, 10, 0, 255 if end == len(entries) else end, count]) + b"".join(entries[start:end])).hex()
            if end == len(entries):
                return
            start = end


def accepted():
    """Each plan of the examples beside each certificate in its folder."""
    for plan in sorted(it for it in TOP.glob("examples/*/*.json") if kind_of(it) == "plan"):
        for certificate in sorted(plan.parent.glob("*certificate*.json")):
            yield plan, certificate


def compiled(trial, node, source, compiler):
    """What the program in C prints, or why it doesn't compile, or has a line that is too long."""
    if any(len(line) > 100 for line in source.decode().splitlines()):
        return "a line of over 100 columns"
    folder = trial.file(f"{compiler}-node", "").with_suffix(".d")
    folder.mkdir(exist_ok=True)
    (folder / "node.c").write_bytes(source)
    records = C_RECORDS.format(id=node.id()) if node.node["terminus"] else ""
    (folder / "main.c").write_text(C_PROGRAM.format(id=node.id(), records=records))
    flags = ["-std=c99", "-Wall", "-Wextra", "-Werror", "-pedantic"]
    made = subprocess.run([compiler, *flags, "main.c", "-o", "main"], cwd=folder, capture_output=True, text=True, timeout=600)
    if made.returncode:
        return made.stderr
    return subprocess.run([folder / "main"], capture_output=True, text=True, timeout=60).stdout


def called(trial, script, status=0):
    """The words with which a script calls mctp, whose commands that add end with the status, or why it is none."""
    mctp = "mctp() { printf '%s\\n' \"$*\"; [ \"$2\" != add ] || return STATUS; }\n".replace("STATUS", str(status))
    path = trial.file("node.sh", mctp.encode() + script)
    read = subprocess.run(["sh", "-n", path], capture_output=True, text=True, timeout=60)
    if read.returncode:
        return read.stderr
    ran = subprocess.run(["sh", path], capture_output=True, text=True, timeout=60, env={})
    return ran.stdout if not ran.returncode and not ran.stderr else f"status {ran.returncode}: {ran.stderr}"


def told_to_daemon(trial, script):
    """The configuration that a script writes and the words with which it calls busctl, or why it is none."""
    conf, path = trial.file("mctpd.conf", ""), trial.file("mctpd.sh", b"busctl() { printf '%s\\n' \"$*\"; }\n" + script)
    ran = subprocess.run(["sh", path], capture_output=True, text=True, timeout=60, env={"MCTPD_CONF": str(conf)})
    if ran.returncode or ran.stderr:
        return [f"status {ran.returncode}: {ran.stderr}"]
    read = tomllib.loads(conf.read_text())
    return [(read["mode"], read.get("bus-owner", {}).get("dynamic_eid_range")), *ran.stdout.splitlines()]


def controllers(tree):
    """The controllers of a device tree's source: the label of each, and its address, where it has one."""
    source = re.sub(r"/\*.*?\*/", "", tree, flags=re.S)
    for label, body in re.findall(r"(?m)^&(\w+) \{ *\n(.*?)^\};\n", source, flags=re.S):
        found = re.search(r"mctp@(\w+) \{\n\t\tcompatible = \"mctp-i2c-controller\";\n\t\treg = <\(0x(\w+) \| I2C_OWN_SLAVE_ADDRESS\)>;", body)
        if not body.startswith("\tmctp-controller;\n") or found and found[1] != found[2]:
            yield f"no controller: {body}"
        else:
            yield label, found and found[1]


def faults(trial, files, node, compilers):
    """What is wrong with a node in each form."""
    export = lambda form, *more: trial.run(["export", form, *files, node.name, *more])
    lines = lambda told: "".join(f"{it}\n" for it in told)
    bus = node.node["ports"][0]["bus"] if node.node["ports"] else None
    links = {bus: "mctpi2c7"} if bus else {}
    for devices in ({}, links):
        status, script, error = export("linux", *(f"--link={bus}={device}" for bus, device in devices.items()))
        for found in (called(trial, script), called(trial, script, 1)):
            if (status, error, found) != (0, b"", lines(node.commands(devices))):
                yield f"linux: {error} {found}"
        options = [f"--link={bus}={device}" for bus, device in devices.items()]
        status, script, error = export("mctpd", *options)
        if (status, error, told_to_daemon(trial, script)) != (0, b"", [*node.daemon(devices)]):
            yield f"mctpd: {error} {told_to_daemon(trial, script)}"
        status, tree, error = export("devicetree", *options)
        if (status, error, [*controllers(tree.decode())]) != (0, b"", [*node.tree(devices)]):
            yield f"devicetree: {error} {tree.decode()}"
    for compiler in compilers:
        status, source, error = export("c")
        told = compiled(trial, node, source, compiler)
        if (status, error, told) != (0, b"", lines(node.told_in_c())):
            yield f"c: {told}"
    wanted = (0, lines(node.answers()).encode()) if node.node["kind"] == "bridge" else (2, b"")
    if export("entries")[:2] != wanted:
        yield f"entries: {export('entries')}"
    wanted = (0, b"".join(bytes.fromhex(it["bytes"]) for it in node.records)) if node.node["terminus"] else (2, b"")
    if export("records")[:2] != wanted:
        yield f"records: {export('records')}"


def renamed(trial):
    """A plan whose names a shell or C would read otherwise, were they not cleaned."""
    names = {"riser": "9-riser.x", "nic": "n.-ic", "ssd": "if", "host": ".-_", "b0": "-rf", "b1": "..."}
    text = (TOP / "examples/riser/plan.json").read_text(), (TOP / "examples/riser/certificate.json").read_text()
    for old, new in names.items():
        text = tuple(it.replace(f'"{old}"', f'"{new}"') for it in text)
    return trial.file("renamed-plan.json", text[0]), trial.file("renamed-certificate.json", text[1])


def over_i3c(trial):
    """Plans of the riser network over I3C, one with a provisioned ID."""
    text = (RISER / "plan.json").read_text().replace('"name":"b1","binding":1', '"name":"b1","binding":6')
    yield trial.file("i3c-plan.json", text), RISER / "certificate.json"
    yield trial.file("pid-plan.json", text.replace('"b1","address":"22"', '"b1","address":"02aabbccddee"')), RISER / "certificate.json"


def faults_together(trial, files, nodes, compiler):
    """What is wrong where one source takes in those of all nodes."""
    folder = trial.file("together", "").with_suffix(".d")
    folder.mkdir(exist_ok=True)
    for place, node in enumerate(nodes):
        (folder / f"{place}.c").write_bytes(trial.run(["export", "c", *files, node.name])[1])
    (folder / "all.c").write_text("".join(f'#include "{place}.c"\n' for place in range(len(nodes))))
    flags = ["-std=c99", "-Wall", "-Wextra", "-Werror", "-pedantic", "-c"]
    return subprocess.run([compiler, *flags, "all.c", "-o", "all.o"], cwd=folder, capture_output=True, text=True, timeout=600).stderr


def try_all(trial):
    # (cc is mostly one of the others)
    compilers = sorted({str(pathlib.Path(shutil.which(it)).resolve()): it for it in ("cc", "gcc", "clang") if shutil.which(it)}.values())
    if not compilers:
        return trial.skip("a C compiler is not there")
    for plan, certificate in [*accepted(), renamed(trial), *over_i3c(trial)]:
        if trial.run(["check", plan, certificate])[1] != b"yes\n":
            continue
        parsed = json.loads(plan.read_text()), json.loads(certificate.read_text())
        nodes = [Node(*parsed, it) for it in parsed[0]["nodes"]]
        if trial.has(f"{plan.name} {certificate.name}"):
            wrong = faults_together(trial, [plan, certificate], nodes, compilers[0])
            trial.note(not wrong, f"{plan.parent.name} {plan.name}: {wrong}")
        for node in nodes:
            name = f"{plan.name} {certificate.name} {node.name}"
            if trial.has(name):
                wrong = [*faults(trial, [plan, certificate], node, compilers)]
                trial.note(not wrong, f"{plan.parent.name} {name}: {wrong}")
    plan, certificate = RISER / "plan.json", RISER / "certificate.json"
    for words in (["linux", "--link", "b0"], ["linux", "--link", "b0=a b"], ["linux", "--link", "b0=$(id)"], ["linux", "--link", "b0="],
                  ["linux", "--link", "b0=x", "--link", "b0=y"], ["c", "--link", "b0=x"], ["linux", "--link", "b0=0123456789abcdef"],
                  ["linux", "--link", "b0=a\nid"], ["linux", "--link", "b0=a;id"]):
        got = trial.run(["export", words[0], plan, certificate, "host", *words[1:]])
        trial.note(got == (2, b"", b"usage\n"), f"{words}: {got}")
    got = trial.run(["export", "linux", plan, certificate, "host", "--link", "b7=x"])
    trial.note(got == (2, b"", b"unreadable node: J06\n"), f"a link of no bus: {got}")
