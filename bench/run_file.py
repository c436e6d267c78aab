"""What `bench/run` has printed: the times and ratios by call, side, shape with its limit, and keep-empty."""


def read_run(path):
    """The times in milliseconds, and the ratios."""
    found = {"time": {}, "ratio": {}}
    with open(path, encoding="ascii") as lines:
        for line in lines:
            words = line.split()
            if len(words) == 6 and words[0] in found:
                found[words[0]][tuple(words[1:5])] = float(words[5])
    return found["time"], found["ratio"]
