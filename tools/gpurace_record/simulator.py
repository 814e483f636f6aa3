"""Records a program's kernels on the simulator Oclgrind."""
from __future__ import annotations

import argparse
import os
import shutil
from typing import Callable, Dict, List

from . import recording
from .recording import TOOLS, Missing, missing_of

RECORDER = os.path.join(TOOLS, "recorder")
NEEDED = [("g++", "g++"), ("make", "make"), ("llvm-config-14", "llvm-14-dev"),
          ("/usr/include/oclgrind/Plugin.h", "liboclgrind-dev"), ("/usr/include/CL/cl.h", "opencl-headers")]
NEVER_ENDS = ("a launch that had not ended is not recorded; one whose groups wait for each other may never end on the simulator, which runs as "
              "many at once as there are processors: record it natively, without --simulator")
NOT_BUILT = "perhaps a kernel did not build, since it has atomics of OpenCL 2.0: --opencl20 gives it these, and so does -cl-std=CL2.0 of the program"


def find(program: str) -> str:
    name = "oclgrind-kernel" if program.endswith(".sim") else "oclgrind"
    if not shutil.which(name):
        raise Missing(f"{name} is not on the path: install the package oclgrind (Debian: apt-get install oclgrind)")
    return name


def build(say: Callable[[str], None]) -> str:
    """The plugin, built where it is missing or older than its sources."""
    sources = [os.path.join(RECORDER, name) for name in os.listdir(RECORDER) if name.endswith((".cpp", ".h")) or name == "Makefile"]
    sources.append(os.path.join(TOOLS, "gpurace_trace.h"))
    return os.path.join(recording.build("the plugin", "half a minute", RECORDER, "simulator", ["recorder.so"], sources, missing_of(NEEDED), say), "recorder.so")


def words(oclgrind: str, plugin: str, options: argparse.Namespace) -> List[str]:
    """The program's command, up to its own words."""
    build_options = ["-include", os.path.join(RECORDER, "opencl20_atomics.h")]
    build_options += [] if options.optimized else ["-O0", "-disable-O0-optnone", f"-fpass-plugin={plugin}"]
    build_options = [f'"{word}"' if " " in word else word for word in build_options]
    build_options += ["-cl-std=CL2.0"] if options.opencl20 else []
    build_options += [options.build_options] if options.build_options else []
    command = [oclgrind, "--plugins", plugin, "--max-wgsize", options.max_group_size or "1024"]
    return command + (["--build-options", " ".join(build_options)] if build_options else [])


def environment(options: argparse.Namespace, folder: str) -> Dict[str, str]:
    settings = {"PYOPENCL_NO_CACHE": "1",  # what pyopencl keeps compiled has no text
                "GPURACE_OUT": folder, "GPURACE_QUIET": "1", "GPURACE_KERNEL": options.kernel or "",
                "GPURACE_LAUNCH": options.launch or "", "GPURACE_GROUPS": options.groups or ""}
    return {**os.environ, **settings}
