"""Packs the package okubinrafo as a wheel, so that pip installs it without a network and without another package."""

import base64
import hashlib
import os
import re
import sysconfig
import zipfile

_HERE = os.path.dirname(os.path.abspath(__file__))


def build_wheel(wheel_directory, config_settings=None, metadata_directory=None):
    """pip's way in (PEP 517): writes the wheel and answers with its name."""
    project = _project()
    files = dict(_package())
    # A library is of one kind of machine.
    of_machine = any(name.endswith(".so") for name in files)
    machine = re.sub(r"[-.]", "_", sysconfig.get_platform()) if of_machine else "any"
    name, tag = f"{project['name']}-{project['version']}", f"py3-none-{machine}"
    files[f"{name}.dist-info/METADATA"] = "".join(
        f"{key}: {value}\n"
        for key, value in (
            ("Metadata-Version", "2.1"),
            ("Name", project["name"]),
            ("Version", project["version"]),
            ("Summary", project["description"]),
            ("Requires-Python", project["requires-python"]),
            ("License", "Apache-2.0"),
        )
    ).encode()
    wheel = f"Wheel-Version: 1.0\nGenerator: okubinrafo\nRoot-Is-Purelib: {str(not of_machine).lower()}\nTag: {tag}\n"
    files[f"{name}.dist-info/WHEEL"] = wheel.encode()
    files[f"{name}.dist-info/RECORD"] = _record(files, f"{name}.dist-info/RECORD")
    with zipfile.ZipFile(os.path.join(wheel_directory, f"{name}-{tag}.whl"), "w", zipfile.ZIP_DEFLATED) as archive:
        for path, content in files.items():
            archive.writestr(path, content)
    return f"{name}-{tag}.whl"


def _project():
    """The texts of pyproject.toml by their keys."""
    with open(os.path.join(_HERE, "pyproject.toml"), encoding="utf-8") as file:
        return dict(re.findall(r'^(name|version|description|requires-python) = "(.*)"$', file.read(), re.MULTILINE))


def _package():
    """The files of the package, with the library if it was built into it."""
    for name in sorted(os.listdir(os.path.join(_HERE, "okubinrafo"))):
        if name.endswith((".py", ".so")):
            with open(os.path.join(_HERE, "okubinrafo", name), "rb") as file:
                yield f"okubinrafo/{name}", file.read()


def _record(files, itself):
    """A line for each file with its digest, none for the record itself."""
    digests = {name: base64.urlsafe_b64encode(hashlib.sha256(content).digest()) for name, content in files.items()}
    lines = [f"{name},sha256={digests[name].rstrip(b'=').decode()},{len(files[name])}\n" for name in files]
    return "".join([*lines, f"{itself},,\n"]).encode()
