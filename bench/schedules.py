"""Schedules for `drill`."""

import random

import lanes

START = 28_492_440


def crashing(events, every, staff=50, seed=1):
    """So many events: employees are included, and then they clock in turn. Of each `every` messages one meets a failure or a crash in
    a device call, with any image, is found after a reopening, and is sent again; now and then a reply is lost, the recorder crashes
    at rest, and an AFD is extracted. It answers the text, and how many entries there are in the end."""
    dice = random.Random(seed)
    workers = lanes.workers(staff)
    lines, sent, entries = [], 0, 1

    def minute():
        return START + len(lines) // 10

    def message(k):
        if k < staff:
            return f"S|9|00|C|{k + 1}|I|{workers[k]}|W{k:04}||52998224725"
        return f"S|1|01|M|{k + 1}|{workers[k % staff]}|0"

    while len(lines) < events - 6:
        lines.append(message(sent))
        sent += 1
        entries += 1
        if sent > staff and sent % every == 0:
            letter, call, image = dice.choice("FK"), dice.randint(1, 4), dice.choice("onx")
            lines.append(f"F|{sent}|{minute()}|{call}" if letter == "F" else f"K|{sent}|{minute()}|{call}|{image}")
            lines.append("O")
        elif sent % every == every // 2:
            lines += [f"D|{sent}|{minute()}|1", f"C|{dice.choice('onx')}", "O"]
        lines.append(f"D|{sent}|{minute()}|0")
        if sent % 1000 == 0:
            lines.append(f"X|2024-03-01|2024-03-31|{minute()}")
    while len(lines) < events:
        lines.append(f"D|{1 + len(lines) % sent}|{minute()}|0")
    return "\n".join(lines) + "\n", entries
