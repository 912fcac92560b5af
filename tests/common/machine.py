"""What a time was measured on: the machine, the compilers, and how the two programs run on it. Used by tools/bench."""
import os
import platform
import shutil
import subprocess


def said(command):
    """The first line that a command prints, or nothing where it cannot be run."""
    try:
        lines = subprocess.run(command, capture_output=True, text=True).stdout.splitlines()
    except OSError:
        return ""
    return lines[0] if lines else ""


def field(path, name):
    """What a file of lines `NAME: value` or NAME=value says of a name, first found."""
    try:
        for line in open(path, encoding="utf-8"):
            for sign in (":", "="):
                key, found, value = line.partition(sign)
                if found and key.strip() == name:
                    return value.strip().strip('"')
    except OSError:
        pass
    return ""


def kit():
    """The folder of the Rattle kit."""
    guide = said(["rt", "doc"])
    return os.path.dirname(os.path.dirname(guide)) if guide else ""


def native():
    """Whether programs for x86-64 run here without an emulator."""
    return platform.machine() == "x86_64"


def runs(program):
    """The command that runs a program of the kit: itself on x86-64, else under the emulator that the kit has."""
    if native():
        return program
    tools = os.path.join(kit(), "on", platform.machine(), "toolchain")
    library = os.path.join(tools, "lib")
    return [os.path.join(tools, "bin", "qemu-x86_64"), os.path.join(library, "ld-linux-x86-64.so.2"), "--library-path", library] + program


def about():
    """Lines that say so."""
    clang = os.path.join(kit(), "on", platform.machine(), "toolchain", "bin", "clang")
    name = field("/proc/cpuinfo", "model name") or field("/proc/cpuinfo", "CPU implementer") or "unknown"
    system = field("/etc/os-release", "PRETTY_NAME") or platform.system()
    lines = [
        f"processor: {name}, {os.cpu_count()} cores, {platform.machine()}",
        f"system: {system}, {platform.system()} {platform.release()}",
        f"compilers: {said(['cat', os.path.join(kit(), 'KIT-ID')])}, {said([clang, '--version'])}; {said(['rustc', '--version'])}",
    ]
    if native():
        lines.append("both programs run natively, as x86-64")
    else:
        lines.append("the library's program is x86-64 and runs under the kit's emulator, the second one natively: the times and ratios below say nothing")
    return lines


def counter():
    """Valgrind's command, or None where it is not installed or cannot run the library's program."""
    return shutil.which("valgrind") if native() else None
