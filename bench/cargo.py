"""Builds the plain programs, without a network."""
import pathlib
import shutil
import subprocess
import sys

HERE = pathlib.Path(__file__).resolve().parent
SOURCES = pathlib.Path("/usr/share/cargo/registry")


def built(folder, program, needed=(), feature=None):
    """The path of a program of this folder, which cargo builds; its dependencies are Debian's packages of Rust sources."""
    missing = [f"librust-{name.replace('_', '-')}-dev" for name in needed if not any(SOURCES.glob(f"{name}-[0-9]*"))]
    if not shutil.which("cargo"):
        missing.append("cargo")
    if missing:
        sys.exit(f"missing, to be had as Debian's packages: {' '.join(missing)}")
    target = HERE / folder / "target" / (feature or "")
    words = ["--features", feature] if feature else []
    subprocess.run(["cargo", "build", "--release", "--offline", "--quiet", "--target-dir", target, *words], cwd=HERE / folder, check=True)
    return target / "release" / program
