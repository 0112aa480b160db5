"""A value change dump (IEEE 1364) in the forms that programs give it."""

from random import Random

from signals import Change, Signal

UNITS = {100: "100 ps", 1000: "1 ns", 10_000: "10 ns", 1_000_000: "1 us"}


def comment(random: Random, signals: list[Signal]) -> str:
    """Its words may look like a time and changes."""
    one = random.choice(signals).identifier
    return f"$comment {random.choice(('made by hand', f'#77 0{one} 1{one} b01 {one}', f'1{one}', 'Größe in µs', '$var', ''))} $end"


def header(random: Random, tick: int, signals: list[Signal]) -> list[str]:
    """Its lines: the signals in this order, in scopes that open and close among them."""
    lines = ["$date Mon Nov 16 13:55:13 2026 $end", "$version 1 ! SCL $end", comment(random, signals)]
    lines = random.sample(lines, random.randint(0, 3))
    unit = UNITS[tick]
    lines.append(random.choice((f"$timescale {unit} $end", f"$timescale {unit.replace(' ', '')} $end", f"$timescale\n\t{unit}\n$end")))
    depth = 0
    for signal in signals:
        if depth == 0 or random.random() < 0.2:
            lines.append(f"$scope {random.choice(('module', 'begin', 'task'))} {random.choice(('top', 'libsigrok', 'SCL', 'u1'))} $end")
            depth += 1
        variable = f"$var {signal.kind} {signal.size} {signal.identifier} {signal.name}{signal.range} $end"
        lines.append(variable if random.random() < 0.9 else variable.replace(" ", "\n  "))
        if random.random() < 0.2:
            lines.append("$upscope $end")
            depth -= 1
        if random.random() < 0.05:
            lines.append(comment(random, signals))
    return lines + ["$upscope $end"] * depth + ["$enddefinitions $end"]


def dump(word: str, values: dict[str, str], signals: list[Signal]) -> list[str]:
    """Every signal's value between a word and $end."""
    return [word, *(signal.change(values.get(signal.identifier, signal.unknown())) for signal in signals), "$end"]


def opening(random: Random, values: dict[str, str], signals: list[Signal]) -> list[list[str]]:
    """The values at time 0: a dump after or before it, where what has none is unknown, or changes as any others."""
    form = random.choice(("after", "before", "plain"))
    if form == "plain":
        told = [signal.change(values[signal.identifier]) for signal in signals if signal.identifier in values]
        return [["#0", *told]] if told else []
    told = dump("$dumpvars", values, signals)
    return [["#0", *told]] if form == "after" else [told, ["#0"]]


def body(random: Random, changes: list[Change], end: int, signals: list[Signal]) -> list[list[str]]:
    """Each time and what comes with it, in any order. Values that stay may be told again."""
    times: dict[int, list[tuple[Signal, str]]] = {end: []}
    for time, signal, value in changes:
        times.setdefault(time, []).append((signal, value))
    values = {signal.identifier: value for signal, value in times.pop(0, [])}
    groups = opening(random, values, signals)
    for time in sorted(times):
        random.shuffle(times[time])
        groups.append([f"#{time}", *(signal.change(value) for signal, value in times[time])])
        values.update((signal.identifier, value) for signal, value in times[time])
        if random.random() < 0.005:
            groups.append(dump("$dumpall", values, signals))
        if random.random() < 0.01:
            groups.append([comment(random, signals)])
    return groups


def text(random: Random, tick: int, changes: list[Change], end: int, signals: list[Signal]) -> bytes:
    """The file. A time and its changes are on one line, as sigrok writes them, or on a line each, as simulators do."""
    between = random.choice((" ", "\n"))
    lines = header(random, tick, signals) + [between.join(group) for group in body(random, changes, end, signals)]
    whole = "\n".join(lines) + random.choice(("\n", "\n", ""))
    return whole.replace("\n", random.choice(("\n", "\n", "\n", "\r\n"))).encode()
