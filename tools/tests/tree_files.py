"""Tree files for tests: the columns of a sample, and a plain writer."""

import struct

import survey_file as house
from listing_file import read_listing


def sample(path):
    """Axes, key, own, begin, total and order of a sample, as its listing has them, with the nodes depth first. The sources are
    numbered from the last leaf on, so that no number is that of its place."""
    survey = house.read_survey(path + ".survey")
    listing = read_listing(path + ".listing", survey, path)
    axes = survey.axes
    nodes = sorted(listing.nodes, key=lambda node: (house.code_of(node.key) << axes * (16 - house.level_of(node.key)), node.key % 32768))
    own = [node.own for node in nodes]
    total = [listing.held[node.key] for node in nodes]
    return [axes, [node.key for node in nodes], own, [sum(own[:n]) for n in range(len(own))], total, list(range(sum(own)))[::-1]]


def plain_file(axes, key, own, begin, total, order, lists=((0,), (), (0,), ())):
    """The bytes of a tree file: nine sections, an entry for each, axes and the number of entries."""
    columns = [key, own, begin, total, order, *lists]
    sections = [struct.pack("<%d%s" % (len(one), "Q" if code in (1, 7, 9) else "I"), *one) for code, one in enumerate(columns, 1)]
    body, trailer = b"".join(sections), b""
    for code in range(1, 10):
        trailer += struct.pack("<3I", code, len(body) - len(b"".join(sections[:code - 1])), len(sections[code - 1]))
    return body + trailer + struct.pack("<2I", axes, 9)
