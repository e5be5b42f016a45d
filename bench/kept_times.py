"""Files of measured times, each measurement under a label."""
import os


def keep(path, head, label, lines):
    """Writes the lines into the file under its head line, in place of those that have the label there."""
    kept = {}
    if os.path.exists(path):
        title = None
        for line in open(path).read().splitlines():
            if line.startswith("== "):
                title = line[3:]
                kept[title] = []
            elif title is not None and line:
                kept[title].append(line)
    kept[label] = lines
    with open(path, "w") as file:
        file.write(head + "\n" + "".join(f"\n== {title}\n" + "".join(f"{line}\n" for line in rows) for title, rows in kept.items()))
