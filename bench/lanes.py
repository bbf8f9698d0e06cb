"""Lanes and a site for the scripts that try the real program. The CPFs are made up and have their check digits."""

import random


def cpf(nine):
    """The nine digits with their two check digits."""
    for weights in (range(10, 1, -1), range(11, 1, -1)):
        rest = sum(weight * int(digit) for weight, digit in zip(weights, nine)) % 11
        nine += str(0 if rest < 2 else 11 - rest)
    return nine


def workers(count):
    return [cpf(str(100000001 + i)) for i in range(count)]


def inclusions(count, origin=9, first=1):
    """An operator's lane that includes so many employees."""
    lines = [f"L|{origin}|00"]
    lines += [f"C|{first + i}|I|{worker}|W{i:04}||52998224725" for i, worker in enumerate(workers(count))]
    return "\n".join(lines) + "\n"


def stamp(place):
    """A stamp of March 2024, one a minute of the day from 06:00 to 22:00."""
    minute = 6 * 60 + place % 960
    return f"2024-03-{4 + place // 960 % 25:02}T{minute // 60:02}:{minute % 60:02}:00-0300"


def clockings(count, of, origin=1, first=1):
    """A collector's lane of so many clockings that were made offline, by so many employees in turn."""
    staff = workers(of)
    lines = [f"L|{origin}|01"]
    lines += [f"M|{first + k}|{staff[k % of]}|1|{stamp(k)}" for k in range(count)]
    return "\n".join(lines) + "\n"


def printed(included, clocked, origin=9):
    """An operator's lane for `print`: the employer's record, inclusions, and clockings of those in turn."""
    employer = "E|1|52998224725|1|11222333000181||ACME LTDA|RUA A 1"
    head, *workers = inclusions(included, origin, first=2).splitlines()
    marks = clockings(clocked, included, origin, first=included + 2).splitlines()[1:]
    return "\n".join([head, employer, *workers, *marks]) + "\n"


def resent(count, of, seed, origin=1):
    """A collector's lane of so many clockings, behind each of which one of those so far, any of them, is sent again."""
    marks = clockings(count, of, origin).split("\n")[1:-1]
    again = random.Random(seed)
    lines = [f"L|{origin}|01"]
    for k, mark in enumerate(marks):
        lines += [mark, marks[again.randint(0, k)]]
    return "\n".join(lines) + "\n"


SITE = """employer_kind = 1
employer = "11222333000181"
name = "ACME LTDA"
place = "RUA A 1"
responsible = "52998224725"
rep = "00051202400012345"
developer_kind = 1
developer = "11222333000181"
offset = "-0300"
"""
