"""The programs of the reference in tests/interface, which was written from document 01 and the landed requests of 02 alone. They need cargo."""

import os
import pathlib
import subprocess

ROOT = pathlib.Path(__file__).resolve().parents[1]
TARGET = ROOT / 'target' / 'interface'


def program(package, name):
    """The path of a program, built anew where its source has changed."""
    manifest = ROOT / 'tests' / 'interface' / 'Cargo.toml'
    words = ['cargo', 'build', '--quiet', '--release', '--offline', '--locked', '--manifest-path', manifest]
    environment = {**os.environ, 'CARGO_TARGET_DIR': str(TARGET)}
    subprocess.run([*words, '--package', package, '--bin', name], env=environment, check=True)
    return TARGET / 'release' / name
