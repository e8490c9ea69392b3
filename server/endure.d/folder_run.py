"""The run over a folder: its parts, and what is kept after a failure."""
import argparse
import pathlib
import shutil
import tempfile
import traceback

import folder_damage
import folder_errors
import folder_full
import folder_kills
import folder_large
import folder_log
import folder_many
import folder_steady
from endure_host import Programs
from folder_host import Place
from harness import Run
from server import PROCESSES

PARTS = {
    "kills": folder_kills, "full disk": folder_full, "errors": folder_errors, "damage": folder_damage,
    "large": folder_large, "many": folder_many, "steady": folder_steady, "log": folder_log,
}


def run(options: argparse.Namespace, programs: Programs, counts: Run):
    """Runs the parts whose names have the word. If one fails, its files are kept."""
    folder = pathlib.Path(tempfile.mkdtemp(prefix="davserve-folder-"))
    try:
        for name, part in PARTS.items():
            if options.only.lower() in name:
                run_part(name, part, Place(programs, folder), options, counts)
    finally:
        PROCESSES.end_all()
        if counts.failed:
            print(f"the files of the run are kept in {folder}")
        else:
            shutil.rmtree(folder, ignore_errors=True)


def run_part(name: str, part, place: Place, options: argparse.Namespace, counts: Run):
    try:
        part.run(place, options, counts)
    except Exception:  # A part that itself fails must not hide the others.
        counts.fail(name, traceback.format_exc().strip())
