"""A copy of the script over one crate without a source, with the proved program, for tests of what is installed and packed."""
import os
import shutil

TOP = os.path.dirname(os.path.dirname(os.path.abspath(__file__)))
PROGRAM = f"{TOP}/crates/mpwb/out/mpwb"


def copy_of_script(folder):
    """Makes the copy, in which the program isn't there yet, and returns the path of its script."""
    os.makedirs(f"{folder}/crates/mpwb/src")
    with open(f"{folder}/crates.txt", "w", encoding="ascii") as crates:
        crates.write("mpwb:\n")
    for name in ("mpwb", "LICENSE-APACHE", "LICENSE-MIT", "README.md", "CHANGELOG.md"):
        shutil.copy(f"{TOP}/{name}", folder)
    for part in ("launcher", "viewer", "docs", "examples", "python"):
        shutil.copytree(f"{TOP}/{part}", f"{folder}/{part}")
    return f"{folder}/mpwb"


def put_program(folder):
    os.mkdir(f"{folder}/crates/mpwb/out")
    shutil.copyfile(PROGRAM, f"{folder}/crates/mpwb/out/mpwb")
    os.chmod(f"{folder}/crates/mpwb/out/mpwb", 0o755)
