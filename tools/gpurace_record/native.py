"""Records a program's kernels on the host's threads: builds the recorder, and gives the program its layer."""
from __future__ import annotations

import argparse
import os
import subprocess
import sys
import tempfile
from typing import Callable, Dict, List, Optional

from .folders import info_of
from . import recording
from .recording import TOOLS, Missing, cache, missing_of
from .report import unrecorded

RECORDER = os.path.join(os.path.dirname(TOOLS), "recorder")
NEEDED = [("g++", "g++"), ("make", "make"), ("clang-15", "clang-15"), ("llvm-config-15", "llvm-15-dev"),
          ("/usr/include/CL/cl_layer.h", "opencl-headers"), ("ld", "binutils"),
          ("/usr/share/pocl/include/opencl-c.h", "libpocl2-common")]
SETTINGS = ("kernel", "launch", "groups", "max_group_size", "most_records", "timeout", "build_options")


def missing_packages() -> List[str]:
    return missing_of(NEEDED)


def build(say: Callable[[str], None]) -> str:
    """The folder with the recorder, built where it is missing or older than its sources."""
    missing = missing_packages()
    if missing:  # programs are compiled with them, too
        raise Missing(f"packages are missing (Debian: apt-get install {' '.join(missing)})")
    sources = [os.path.join(folder, name) for folder, _, names in os.walk(os.path.join(RECORDER, "src")) for name in names]
    shared = os.path.join(TOOLS, "recorder")
    sources += [os.path.join(RECORDER, "Makefile"), *(os.path.join(shared, name) for name in os.listdir(shared) if name.endswith(".h"))]
    return recording.build("the recorder", "a minute", RECORDER, "recorder", ["layer.so", "instrument-kernels"], sources, [], say)


def environment(out: str, options: argparse.Namespace, folder: str, seed: Optional[int], is_judged: bool) -> Dict[str, str]:
    """The program's environment: the layer, and its settings (recorder/README.md)."""
    layers = os.path.join(out, "layer.so")
    if os.environ.get("OPENCL_LAYERS"):
        layers += ":" + os.environ["OPENCL_LAYERS"]
    settings = {"OPENCL_LAYERS": layers, "GPURACE_OUT": folder, "PYOPENCL_NO_CACHE": "1",
                "GPURACE_KEPT_BUILDS": os.path.join(cache(), "programs"),
                "GPURACE_SEED": "" if seed is None else str(seed),
                "GPURACE_JUDGE": str(os.getpid()) if is_judged else ""}
    for name in SETTINGS:
        if getattr(options, name, None) is not None:
            settings["GPURACE_" + name.upper()] = getattr(options, name)
    return {**os.environ, **settings}


def check(say: Callable[[str], None]) -> bool:
    """Says what this machine has, and records one small kernel. Answers whether all is there."""
    missing = missing_packages()
    for needed, package in NEEDED:
        state = "missing" if package in missing else "there  "
        print(f"  {state}  {os.path.basename(needed)}, of the package {package}", flush=True)
    program = [sys.executable, os.path.join(RECORDER, "tests", "small_program.py")]
    listed = subprocess.run(program + ["list"], capture_output=True, text=True)
    print("".join(f"  {line}\n" for line in (listed.stdout or listed.stderr).splitlines()), end="", flush=True)
    if missing or listed.returncode != 0:
        say("not ready" + (f": apt-get install {' '.join(missing)}" if missing else ""))
        return False
    with tempfile.TemporaryDirectory() as folder:
        variables = environment(build(say), argparse.Namespace(), folder, None, False)
        ran = subprocess.run(program + ["run"], capture_output=True, text=True, env=variables)
        recorded = [info_of(os.path.join(folder, name)) for name in os.listdir(folder) if name.startswith("000-")]
        is_right = ran.returncode == 0 and len(recorded) == 1 and recorded[0]["records"][:1] == ["34"]
        say("one small kernel was recorded: 2 groups of 8 work-items, 34 records; all is there" if is_right
            else "one small kernel could not be recorded:\n" + ran.stdout + ran.stderr
            + "".join(reason.text for reason in unrecorded(folder)))
        return is_right
