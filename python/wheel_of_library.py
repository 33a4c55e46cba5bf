"""Builds the wheel of this folder with python alone, so that `pip install ./python` needs no network.

The shared library, tozbirem/libtozbirem.so, is put there by `tools/library.sh python`.
"""

import base64
import hashlib
import os
import re
import sysconfig
import zipfile

HERE = os.path.dirname(os.path.abspath(__file__))
LIBRARY = "tozbirem/libtozbirem.so"


def project(name):
    """A line of pyproject.toml."""
    with open(f"{HERE}/pyproject.toml") as file:
        return re.search(rf'^{name} = "(.*)"$', file.read(), re.M)[1]


def metadata():
    return (f"Metadata-Version: 2.1\nName: {project('name')}\nVersion: {project('version')}\n"
            f"Summary: {project('description')}\nRequires-Python: {project('requires-python')}\nLicense: Apache-2.0\n")  # fmt: skip


def wheel_name():
    machine = re.sub(r"\W", "_", sysconfig.get_platform())
    return f"{project('name')}-{project('version')}-py3-none-{machine}.whl"


def written(folder, files):
    """The wheel of these files, with what a wheel says of itself. Its name."""
    about = f"{project('name')}-{project('version')}.dist-info"
    kind = wheel_name().split("-", 2)[2][: -len(".whl")]
    files = {**files, f"{about}/METADATA": metadata().encode(),
             f"{about}/WHEEL": f"Wheel-Version: 1.0\nGenerator: tozbirem\nRoot-Is-Purelib: false\nTag: {kind}\n".encode()}  # fmt: skip
    rows = []
    with zipfile.ZipFile(os.path.join(folder, wheel_name()), "w", zipfile.ZIP_DEFLATED) as wheel:
        for name, data in sorted(files.items()):
            digest = base64.urlsafe_b64encode(hashlib.sha256(data).digest()).rstrip(b"=").decode()
            rows.append(f"{name},sha256={digest},{len(data)}\n")
            wheel.writestr(name, data)
        wheel.writestr(f"{about}/RECORD", "".join(rows) + f"{about}/RECORD,,\n")
    return wheel_name()


def test_library():
    if not os.path.exists(f"{HERE}/{LIBRARY}"):
        raise SystemExit(f"{LIBRARY} is not there: `tools/library.sh python` builds it")


def build_wheel(wheel_directory, config_settings=None, metadata_directory=None):
    test_library()
    files = {}
    for name in sorted(os.listdir(f"{HERE}/tozbirem")):
        if name.endswith((".py", ".pyi", ".so")) or name == "py.typed":
            with open(f"{HERE}/tozbirem/{name}", "rb") as file:
                files[f"tozbirem/{name}"] = file.read()
    return written(wheel_directory, files)


def build_editable(wheel_directory, config_settings=None, metadata_directory=None):
    test_library()
    return written(wheel_directory, {"tozbirem.pth": f"{HERE}\n".encode()})


def build_sdist(sdist_directory, config_settings=None):
    raise SystemExit("there is no source package: the library is proved and built by tools/library.sh in a checkout")
