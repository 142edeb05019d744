#!/usr/bin/env python3
"""Setups and inputs at their limits, and one past them, on the built program.

    .ci/program/limits.py [PROGRAM]     crates/nagsched/out/nagsched if no program is named

The wanted results follow from docs/program.md and docs/rules.md and are written down here; nothing is taken from the program.
"""
import json
import os
import random
import resource
import subprocess
import tempfile

from harness import Harness, input_lines

OPTIONS = {"host_inter_check_delay_method": "n", "service_inter_check_delay_method": "n"}
SERVICES, HOSTS = 4_000, 90
PARENTS = 16_384
WHOLE_INPUT, DOCUMENT = 67_108_864, 16_777_216
# Bytes of stack: for every command, and for a document as deep as it may be nested.
LITTLE_STACK, DEEP_STACK = 131_072, 262_144


def host(name, **members):
    return {"name": name, "max_check_attempts": 1, **members}


def service(at, description, **members):
    return {"host": at, "description": description, "max_check_attempts": 1, **members}


def dependency(dependent, master, **members):
    return {"dependent": dependent, "master": master, "criteria": "c", **members}


def setup(**members):
    """A setup document's line; first checks are all due at the start."""
    return json.dumps({"options": OPTIONS, **members})


def many_services(**last):
    """The members of 4,000 services on 90 hosts; the last service also has these members."""
    services = [service(f"host{n % HOSTS:02}", f"service{n:04}") for n in range(SERVICES)]
    services[-1] |= last
    return {"hosts": [host(f"host{n:02}") for n in range(HOSTS)], "services": services}


def check_refused(harness, what, line, explanation=None, **members):
    """A document is refused by this line, and a check explains it so."""
    document = input_lines(setup(**members))
    harness.compare(what, (input_lines(f"refused {line}"), 1), harness.run([], document))
    if explanation:
        harness.compare(f"{what}, explained", (input_lines(f"refused {line}", explanation), 1), harness.run(["check"], document))


def many_objects(harness):
    """All objects are due at once, and are taken in the order of their numbers, in any order of the document."""
    members = many_services()
    names = [h["name"] for h in members["hosts"]]
    names += [f"{s['host']};{s['description']}" for s in sorted(members["services"], key=lambda s: (s["host"], s["description"]))]
    for kind in members.values():
        random.Random(4000).shuffle(kind)
    takes = ['["take",0]'] * (len(names) + 1)
    wanted = [*(f"taken {run} {name}" for run, name in enumerate(names, 1)), "idle none"]
    harness.compare("4,000 services on 90 hosts", (input_lines(*wanted), 0), harness.run([], input_lines(setup(**members), *takes)))


def all_fail(harness):
    """4,096 objects that all fail: hosts first, so that each problem of a service is hard at once. All are due again after the check interval."""
    hosts = [host(f"host{n:02}") for n in range(96)]
    services = [service(f"host{n % 96:02}", f"service{n:04}", max_check_attempts=3) for n in range(4_000)]
    names = [h["name"] for h in hosts] + [f"{s['host']};{s['description']}" for s in sorted(services, key=lambda s: (s["host"], s["description"]))]
    takes = [[f'["take",{now}]'] * len(names) + [f'["take",{now}]'] for now in (0, 300_000)]
    wanted = [[f"taken {run} {name}" for run, name in enumerate(names, first)] for first in (1, 4_097)]
    standings = [f"standing {'CRITICAL HARD 3' if ';' in name else 'DOWN HARD 1'} yes STEADY 300000 {name}" for name in names]
    reports = [f'["report","{name}",{run},2]' for run, name in enumerate(names, 1)]
    harness.compare("4,096 objects that fail", (input_lines(*wanted[0], "idle none", *standings, *wanted[1], "idle none"), 0),
                    harness.run([], input_lines(setup(hosts=hosts, services=services), *takes[0], *reports, *takes[1])))


def many_calls(harness):
    """A run of more than 100,000 calls."""
    count = 120_000
    script = input_lines(setup(hosts=[host("h")])) + b'["take",0]\n' * count
    harness.compare(f"{count} calls", (input_lines("taken 1 h") + input_lines("idle none") * (count - 1), 0), harness.run([], script))


def long_names(harness):
    """The largest number of hosts, under long names: a document of more than a million bytes of content."""
    names = [f"{'h' * 240}{n}" for n in range(4_096)]
    document = input_lines(setup(hosts=[host(name) for name in names]), '["take",0]')
    harness.compare("4,096 hosts under long names", (input_lines(f"taken 1 {names[0]}"), 0), harness.run([], document))


def many_parents(harness):
    """A host with 16,384 parents, 4,000 different ones, is UNREACHABLE when the last of them is down."""
    names = [f"parent{n:04}" for n in range(4_000)]
    parents = [names[n % len(names)] for n in range(PARENTS)]
    hosts = [host("router", parents=parents), *map(host, names)]
    down = "standing DOWN HARD 1 yes STEADY 300000"
    run, last = len(names) + 1, len(names)
    commands = ['["take",0]'] * run + [f'["report","{name}",{at},2]' for at, name in enumerate(names[:-1], 1)]
    wanted = [f"taken {at} {name}" for at, name in enumerate([*names, "router"], 1)] + [f"{down} {name}" for name in names[:-1]]
    for command, reply in {
        f'["report","router",{run},2]': f"{down} router",
        f'["report","{names[-1]}",{last},2]': f"{down} {names[-1]}",
        '["reschedule","router",1000,false]': "done router",
        '["take",1000]': f"taken {run + 1} router",
        f'["report","router",{run + 1},2]': "standing UNREACHABLE HARD 1 yes STEADY 301000 router",
    }.items():
        commands.append(command)
        wanted.append(reply)
    harness.compare("16,384 parents", (input_lines(*wanted), 0), harness.run([], input_lines(setup(hosts=hosts), *commands)))
    explanation = "there are 16385 parents of all hosts; there can be 16384"
    check_refused(harness, "16,385 parents", "L3 TooMany", explanation, hosts=[host("router", parents=[*parents, names[0]]), *map(host, names)])


def too_many(harness):
    """One object and one dependency too many."""
    explanation = "there are 4097 hosts and services; there can be 4096"
    check_refused(harness, "4,097 objects", "L3 TooMany", explanation, hosts=[host("h")], services=[service("h", f"s{n}") for n in range(4_096)])
    explanation = "there are 16385 dependencies of both sorts; there can be 16384"
    check_refused(harness, "16,385 dependencies", "L3 TooMany", explanation, host_dependencies=[dependency("a", "b", criteria="d")] * (PARENTS + 1))


def explained_at_limits(harness):
    """Lists at their limits aren't reported as too long next to a list past its limit, and a count is reported before any other fault."""
    full = {"hosts": [host(f"h{n}", parents=["h0"] * 4) for n in range(4_096)]}
    at_limits = [f"{word} {count}" for word, count in {
        "hosts": 4_096, "services": 0, "dependencies": PARENTS, "parents": PARENTS - 4, "dependency_chain": 1, "parent_chain": 1, "scheduled": 4_096,
        "disabled": 0, "without_interval": 0, "host_delay": "none", "host_first": 0, "host_last": 0, "service_delay": "none", "service_first": "none",
        "service_last": "none", "interleave_factor": 1}.items()]
    full["hosts"][0] = host("h0")
    document = input_lines(setup(**full, host_dependencies=[dependency("h2", "h1", criteria="d")] * PARENTS))
    harness.compare("three lists at their limits, checked", (input_lines("setup ok", *at_limits), 0), harness.run(["check"], document))
    full["hosts"][0] = host("h0", parents=["x"] * 4)
    explanation = "there are 16385 dependencies of both sorts; there can be 16384"
    many = {"service_dependencies": [dependency("a", "b")], "host_dependencies": [dependency("a", "b", criteria="d")] * PARENTS}
    check_refused(harness, "16,384 parents and 16,385 dependencies", "L3 TooMany", explanation, **full, **many)
    full["hosts"][1] = host("h1", parents=["x"] * 5)
    explanation = "there are 16385 parents of all hosts; there can be 16384"
    check_refused(harness, "4,096 hosts and 16,385 parents", "L3 TooMany", explanation, **full, **many)
    explanation = "there are 4097 hosts and services; there can be 4096"
    odd = [host("a;", parents=["x"] * 5, max_check_attempts=0) for _ in range(4_096)]
    check_refused(harness, "4,097 objects with each other fault", "L3 TooMany", explanation, hosts=odd, services=[service("", "")], **many)


def most_dependencies(harness):
    """The largest number of dependencies, all of one host on another."""
    members = {"hosts": [host("a"), host("b")], "host_dependencies": [dependency("a", "b", criteria="d")] * PARENTS}
    harness.compare("16,384 dependencies", (input_lines("taken 1 a"), 0), harness.run([], input_lines(setup(**members), '["take",0]')))


def chain_of_services(count):
    """The members of a host without regular checks and of services. Each service depends on the one before it, and inherits; the last has the least number but one."""
    chain = ["a-master", *(f"c{n:04}" for n in range(count - 2)), "b-dependent"]
    pairs = zip(chain[1:], chain)
    return {
        "hosts": [host("h", check_interval=0)],
        "services": [service("h", name) for name in chain],
        "service_dependencies": [dependency(f"h;{one}", f"h;{other}", inherits_parent=True) for one, other in pairs],
    }


CHAIN_CALLS = {
    '["take",0]': "taken 1 h;a-master",
    '["report","h;a-master",1,2]': "standing CRITICAL HARD 1 yes STEADY 300000 h;a-master",
    '["take", 0]': "putoff 300000 h;b-dependent",
}


def long_chain(harness):
    """A problem at one end of a chain of dependencies that inherit puts off the check at the other end."""
    wanted = input_lines(*CHAIN_CALLS.values()), 0
    harness.compare("a chain of 4,000 dependencies", wanted, harness.run([], input_lines(setup(**chain_of_services(4_001)), *CHAIN_CALLS)))


def wide_layers(harness):
    """Forty layers of forty hosts. Each host depends on four hosts of the next layer and inherits, so many masters wait at once to be examined."""
    names = [[f"{layer:02}-{place:02}" for place in range(40)] for layer in range(40)]
    links = [dependency(upper[place], lower[(place + step) % 40], criteria="d", inherits_parent=True)
             for upper, lower in zip(names, names[1:]) for place in range(40) for step in range(4)]
    document = input_lines(setup(hosts=[host(name) for layer in names for name in layer], host_dependencies=links))
    first, last = names[0][0], names[-1][39]
    harness.compare("wide layers that are up", (input_lines(f"taken 1 {first}"), 0), harness.run(["run", "--start", "10"], document + input_lines('["take",10]')))
    down = input_lines(f'["reschedule","{last}",0,false]', '["take",0]', f'["report","{last}",1,2]', '["take",10]')
    wanted = [f"done {last}", f"taken 1 {last}", f"standing DOWN HARD 1 yes STEADY 300000 {last}", f"putoff 300010 {first}"]
    harness.compare("wide layers above a host that is down", (input_lines(*wanted), 0), harness.run(["run", "--start", "10"], document + down))


def with_stack(size):
    """How to start a program with this stack, and the same for each of its threads."""
    return {"preexec_fn": lambda: resource.setrlimit(resource.RLIMIT_STACK, (size, size)), "env": {}}


def little_stack(harness):
    """Each command on 4,096 objects, with little stack: it doesn't grow with a setup, but by a fixed limit with the depth of a document."""
    how = with_stack(LITTLE_STACK)
    parents = [host(f"p{n:04}", parents=[f"p{n + 1:04}"] * (n < 4_095)) for n in range(4_096)]
    harness.compare("little stack, a chain of parents", (input_lines("taken 1 p0000"), 0),
                    harness.run([], input_lines(setup(hosts=parents), '["take",0]'), **how))
    document = input_lines(setup(**chain_of_services(4_095)))
    calls, replies = input_lines(*CHAIN_CALLS), input_lines(*CHAIN_CALLS.values())
    for command in ("run", "live"):
        harness.compare(f"little stack, {command}", (replies, 0), harness.run([command], document + calls, **how))
    text, status = harness.run(["check"], document, **how)
    harness.compare("little stack, check", (["setup ok", "dependency_chain 4094"], 0),
                    ([line for line in text.decode().splitlines() if line.startswith(("setup", "dependency_chain"))], status))
    text, status = harness.run([], document + calls + input_lines('["save"]'), **how)
    shown, _, state = text.partition(b"saved ")
    harness.compare("little stack, save", (replies, 0), (shown, status))
    text, status = harness.run([], document + input_lines('["list"]'), **how)
    lines = text.decode().splitlines()
    harness.compare("little stack, list", ("listed 4096", 4_097, 0), (lines[0], len(lines), status))
    for command in ("run", "live"):
        came = harness.run([command, "--resume"], document + state + input_lines('["reschedule","h;a-master",0,false]'), **how)
        harness.compare(f"little stack, {command} --resume", (input_lines("done h;a-master"), 0), came)
    text, status = harness.run(["check", "--resume"], document + state, **how)
    harness.compare("little stack, check --resume", (["kept 4096", "new 0", "dropped 0", "given_up 0"], 0), (text.decode().splitlines()[-4:], status))
    text, status = harness.run(["drill", "--workers", "2"], document + input_lines('["moment",0]'), **how)
    harness.compare("little stack, drill", (["total 4 0"], 0), (text.decode().splitlines()[-1:], status))
    for depth, line in {127: "L2 Shape hosts 0", 5_000: "L1 NotJson"}.items():
        nested = input_lines('{"hosts":' + "[" * (depth - 1) + "]" * (depth - 1) + "}")
        harness.compare(f"a document of depth {depth}", (input_lines(f"refused {line}"), 1), harness.run([], nested, **with_stack(DEEP_STACK)))


def many_workers(harness):
    """The most workers, each taking 200 times at the time at which one host is due: every call is made once. The host is taken and reported once."""
    calls = input_lines(setup(hosts=[host("a")]), *['["moment",0]'] * 200)
    text, status = harness.run(["drill", "--workers", "64"], calls)
    harness.compare("64 workers", (["total 12801 0"], 0), (text.decode().splitlines()[-1:], status))


def many_ways(harness):
    """Forty layers of two hosts. Each host depends on both hosts of the next layer and inherits: 2^39 ways lead from the first to the last."""
    layers = [(f"a{layer}", f"b{layer}") for layer in range(10, 50)]
    pairs = [(one, other) for upper, lower in zip(layers, layers[1:]) for one in upper for other in lower]
    links = [dependency("a10", "a11", criteria="d"), *(dependency(one, other, criteria="d", inherits_parent=True) for one, other in pairs)]
    document = input_lines(setup(hosts=[host(name) for layer in layers for name in layer], host_dependencies=links))
    names = sorted(sum(layers, ()))
    takes = input_lines(*['["take",10]'] * len(names))
    wanted = [f"taken {at} {name}" for at, name in enumerate(names, 1)]
    harness.compare("forty layers that are up", (input_lines(*wanted), 0), harness.run(["run", "--start", "10"], document + takes))
    down = input_lines('["reschedule","b49",0,false]', '["take",0]', '["report","b49",1,2]')
    put_off = {name: f"putoff 300010 {name}" for name in names if name != "b49"} | {"a49": "taken 2 a49"}
    wanted = ["done b49", "taken 1 b49", "standing DOWN HARD 1 yes STEADY 300000 b49", *put_off.values(), "idle 300000"]
    harness.compare("forty layers above a host that is down", (input_lines(*wanted), 0), harness.run(["run", "--start", "10"], document + down + takes))


def long_cycles(harness):
    """4,000 objects in a ring, of each sort of dependency and of parents."""
    names = [f"x{n:04}" for n in range(4_000)]
    ring = list(zip(names, [*names[1:], names[0]]))
    hosts = [host(name) for name in names]
    services = [service("h", name) for name in names]
    of_services = [dependency(f"h;{one}", f"h;{other}") for one, other in ring]
    of_hosts = [dependency(one, other, criteria="d") for one, other in ring]
    check_refused(harness, "a cycle of services", "L9 DependencyCycle", hosts=[host("h")], services=services, service_dependencies=of_services)
    check_refused(harness, "a cycle of hosts", "L9 DependencyCycle", hosts=hosts, host_dependencies=of_hosts)
    check_refused(harness, "a cycle of parents", "L10 ParentCycle", hosts=[host(one, parents=[other]) for one, other in ring])
    ended = [host(one, parents=[other]) for one, other in ring[:-1]] + [host(names[-1])]
    harness.compare("a chain of parents", (b"", 0), harness.run([], input_lines(setup(hosts=ended))))


def last_of_many(harness):
    """A fault in the last of 4,000 services is reported with its index, in each test of services."""
    for what, line, last in [
        ("an unknown member", "L2 Shape", {"check_period": 1}),
        ("a member of the wrong kind", "L2 Shape", {"enabled": 1}),
        ("a bad description", "L4 BadName", {"description": "a;b"}),
        ("the first one's name", "L5 Duplicate", {"host": "host00", "description": "service0000"}),
        ("an unknown host", "L6 UnknownHost", {"host": "host90"}),
        ("a number past its limit", "L8 Range", {"max_check_attempts": 256}),
        ("a number below its limit", "L8 Range", {"max_check_attempts": 0}),
    ]:
        check_refused(harness, f"{what}, last of many", f"{line} services {SERVICES - 1}", **many_services(**last))


def places(harness):
    """Faults of each member of the document, and of an item of each list, with their places."""
    for place in ("options", "hosts", "services", "service_dependencies", "host_dependencies"):
        check_refused(harness, f"{place} of the wrong kind", f"L2 Shape {place}", **{place: 5})
    for place in ("hosts", "services", "service_dependencies", "host_dependencies"):
        check_refused(harness, f"{place} with a number", f"L2 Shape {place} 0", **{place: [5]})
    check_refused(harness, "an unknown member", "L2 Shape document", unknown=5)
    check_refused(harness, "an unknown option", "L2 Shape options", options={"unknown": 5})
    check_refused(harness, "an option out of its limits", "L8 Range options", options={"interval_length": 0})
    check_refused(harness, "a host out of its limits", "L8 Range hosts 1", hosts=[host("a"), host("b", retry_interval=525_601)])
    check_refused(harness, "a service out of its limits", "L8 Range services 0", hosts=[host("a")], services=[service("a", "s", check_interval=525_601)])


def run_file(harness, front, byte, size, arguments=()):
    """Runs, with these arguments, on a file of a prefix and copies of a byte. Also returns the number of its bytes that the program has read."""
    with tempfile.TemporaryFile() as file:
        file.write(front)
        for left in range(size - len(front), 0, -(1 << 20)):
            file.write(byte * min(left, 1 << 20))
        file.flush()
        os.lseek(file.fileno(), 0, os.SEEK_SET)
        return *harness.run(arguments, file.fileno()), os.lseek(file.fileno(), 0, os.SEEK_CUR)


def long_inputs(harness):
    """Inputs at the limits of bytes. At most one byte past the limit is read, and an endless input is refused."""
    too_long = input_lines("refused S1 TooLong 0"), 1
    harness.compare("a document at its limit", (b"", 0, DOCUMENT), run_file(harness, b"{}", b" ", DOCUMENT))
    past = (input_lines("refused L12 TooLong"), 1, DOCUMENT + 1)
    harness.compare("a document past its limit", past, run_file(harness, b"{}", b" ", DOCUMENT + 1))
    harness.compare("spaces past the limit", past, run_file(harness, b"", b" ", DOCUMENT + 1))
    checked = ["check", "--line"]
    harness.compare("a check at the limit", (input_lines("{}"), 0, DOCUMENT), run_file(harness, b"{}", b" ", DOCUMENT, checked))
    explained = input_lines("refused L12 TooLong", f"the document has more than {DOCUMENT} bytes")
    harness.compare("a check past the limit", (explained, 1, DOCUMENT + 1), run_file(harness, b"{}", b" ", DOCUMENT + 1, checked))
    harness.compare("an input at its limit", (b"", 0, WHOLE_INPUT), run_file(harness, b"{}", b"\n", WHOLE_INPUT))
    harness.compare("an input past its limit", (*too_long, WHOLE_INPUT + 1), run_file(harness, b"{}", b"\n", WHOLE_INPUT + 1))
    harness.compare("an input far past its limit", (*too_long, WHOLE_INPUT + 1), run_file(harness, b"{}", b"\n", WHOLE_INPUT + 5_000_000))
    late = b"{}" + b"\n" * 999_999 + b"5"
    harness.compare("a refusal of line 1,000,000", (input_lines("refused S3 Shape 1000000"), 1), harness.run([], late))
    with subprocess.Popen(["yes", "{}"], stdout=subprocess.PIPE, stderr=subprocess.DEVNULL) as endless:
        harness.compare("an input without an end", too_long, harness.run([], endless.stdout.fileno()))
        endless.stdout.close()


def saved_states(harness):
    """Saved states at the limits of bytes and of objects, each in a run and in a check, and an input past its limit."""
    pending = {"attempt": 1, "check_interval": 300_000, "checked": False, "enabled": True, "enabled_in_setup": True, "flapping": "STEADY",
               "forced": False, "kind": "HARD", "last_hard_state": "UP", "max_check_attempts": 1, "next_check": 0, "results": "", "run": None,
               "state": "UP"}
    objects = [{**pending, "name": f"h{n}"} for n in range(4_097)]
    many = [json.dumps({"format": 1, "objects": objects[:count], "runs": 0, "start": 0}) for count in (4_096, 4_097)]
    document = input_lines(setup(hosts=[host("h0")]))
    whole = document + input_lines(many[0])
    past = len(document) + DOCUMENT + 1
    for what, front, byte, size, line, explanation in [
        ("4,097 saved objects", document + input_lines(many[1]), b"", 0, "K5 TooMany", '"objects" has more than 4096 objects'),
        ("a saved state past its limit", document, b" ", past, "K1 TooLong", f"the saved state has more than {DOCUMENT} bytes"),
        ("spaces up to the limit", document, b" ", past - 1, "K2 NotJson", "the saved state is no JSON"),
        ("lines past the limit", whole, b"\n", WHOLE_INPUT + 1, "S1 TooLong 0", f"the input has more than {WHOLE_INPUT} bytes"),
    ]:
        size = max(size, len(front))
        harness.compare(f"{what}, in a run", (input_lines(f"refused {line}"), 1, size), run_file(harness, front, byte, size, ["run", "--resume"]))
        harness.compare(f"{what}, checked", (input_lines(f"refused {line}", explanation), 1, size), run_file(harness, front, byte, size, ["check", "--resume"]))
    for what, front, byte, size in [
        ("a saved state at its limit", whole[:-1], b" ", past - 1),
        ("lines up to the limit", whole, b"\n", WHOLE_INPUT),
    ]:
        harness.compare(f"{what}, in a run", (b"", 0, size), run_file(harness, front, byte, size, ["run", "--resume"]))
        text, *ended = run_file(harness, front, byte, size, ["check", "--resume"])
        harness.compare(f"{what}, checked", (["kept 1", "new 0", "dropped 4095", "given_up 0"], [0, size]), (text.decode().splitlines()[-4:], ended))


harness = Harness("limits")
LISTS = (many_objects, all_fail, long_names, many_parents, too_many, explained_at_limits, most_dependencies, long_chain, many_ways, wide_layers, long_cycles, last_of_many)
for part in (*LISTS, little_stack, many_workers, many_calls, places, long_inputs, saved_states):
    part(harness)
harness.end()
