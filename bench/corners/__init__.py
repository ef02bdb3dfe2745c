"""The inputs of `bench/slow-corners`, and how a program is measured over them."""

import pathlib
import sys

sys.path.append(str(pathlib.Path(__file__).resolve().parents[2] / "tools"))
