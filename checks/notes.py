"""What the gate notes of each thing that is done: what it is, its name, how much of it passed, and how much failed. NOTES names the file."""
import os


def note(what, name, passed, failed):
    """Notes what came of a thing, where there is a file for it. The last note of a thing counts."""
    if "NOTES" in os.environ:
        with open(os.environ["NOTES"], "a", encoding="utf-8") as it:
            it.write(f"{what}\t{name}\t{passed}\t{failed}\n")


def notes():
    """What is noted so far: by what it is and its name, how much passed and failed."""
    found = {}
    if os.path.isfile(os.environ["NOTES"]):
        with open(os.environ["NOTES"], encoding="utf-8") as it:
            for line in it:
                what, name, passed, failed = line.rstrip("\n").split("\t")
                found[what, name] = int(passed), int(failed)
    return found
