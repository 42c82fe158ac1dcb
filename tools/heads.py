"""Reads the hand-written heads of a page that is made from the crates."""


def heads_of(path):
    """The lines in front of the first heading, under the empty name, and those below each `## NAME`, under that name."""
    heads, name = {"": []}, ""
    for line in path.read_text().rstrip().split("\n"):
        if line.startswith("## "):
            name = line[3:].strip()
            heads[name] = []
        else:
            heads[name].append(line)
    return heads
