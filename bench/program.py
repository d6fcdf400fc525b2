"""Programs that a bench proves and builds over crates of this repository."""
import os
import shutil
import subprocess

TOP = os.path.dirname(os.path.dirname(os.path.abspath(__file__)))


def build(folder, name, source, crates):
    """The path of the program of this name and source, proved and built in the folder. `crates` are lines of a
    crates.txt: that of the program, and those of the repository's crates that it uses."""
    subprocess.run(["git", "init", "-q", folder], check=True)
    with open(os.path.join(folder, "crates.txt"), "w") as listed:
        listed.write(crates)
    for line in crates.splitlines():
        used = line.split(":")[0]
        if used != name:
            shutil.copytree(os.path.join(TOP, "crates", used), os.path.join(folder, "crates", used))
    crate = os.path.join(folder, "crates", name)
    os.makedirs(os.path.join(crate, "src"))
    with open(os.path.join(crate, "src/main.rt"), "w") as main:
        main.write(source)
    # The run without arguments may end with a status of its own: what counts is that the program is there.
    subprocess.run(["rt", "run"], cwd=crate, stdout=subprocess.DEVNULL, check=False)
    path = os.path.join(crate, "out", name)
    if not os.path.exists(path):
        raise SystemExit(f"{name} was not built")
    return path
