"""The slow path of ./fp2, where it finds no proved program itself: prints the path of the program to run. If that has
no proof, a line on standard error says so, with the state of the proof, which is begun in the background.

    launch.py               prints the path, or `try` where this kit cannot make a program without a proof
    launch.py --try WORDS   becomes `rt try` of the program with these words
"""
import os
import signal
import sys

sys.dont_write_bytecode = True
import building
import proving
import unproved
from building import Stop, tell

# The status of a launcher that cannot start any program; the program itself has none above 10.
FAILED = 125


def find():
    """The path of the program to run, or `try`."""
    places = building.Places()
    tree, program = building.find_proved(places)
    if program:
        return program
    kit = building.find_kit()
    made = places.unproved(tree)
    if not os.access(made, os.X_OK):
        if kit is None:
            raise Stop("there is no program, and no kit of Rattle to make one: no rt on the path, and no /opt/rattle")
        made = unproved.make(tree, kit, places)
    is_begun = proving.reason_not_to(kit) is None and not proving.has_failed(tree, kit, places)
    if is_begun:
        proving.begin(places)
    by_try = "run by `rt try`, which takes minutes and stores no file"
    how = "compiled from these sources without a proof" if made else by_try
    state = proving.progress(tree, kit, places, is_begun)
    tell(f"this program is NOT PROVED ({how}); {state}{'; ' + places.note if places.note else ''}")
    return made or "try"


def words_of_try(words):
    """The words of `rt try`, which runs the program in a folder of its own, with copies of the files that are named."""
    files, passed = [], []
    for number, word in enumerate(words):
        if os.path.isfile(word):
            name = f"{number}-{os.path.basename(word)}".replace("=", "_")
            files += ["--data", f"{name}={os.path.abspath(word)}"]
            word = name
        passed.append(word)
    return ["rt", "try", *files, "--", *passed]


def main():
    """Prints the path, or becomes `rt try`."""
    if sys.argv[1:2] == ["--try"]:
        words = words_of_try(sys.argv[2:])
        os.chdir(f"{building.TOP}/crates/{building.PROGRAM}")
        for it in (signal.SIGPIPE, signal.SIGXFSZ):
            signal.signal(it, signal.SIG_DFL)
        os.execvp(words[0], words)
    building.stop_on_signals()
    building.end_with_shell()
    print(find())


if __name__ == "__main__":
    try:
        main()
    except (Stop, OSError) as why:
        tell(why)
        sys.exit(FAILED)
