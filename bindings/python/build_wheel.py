"""A build backend of the standard library alone, so that `pip install .` asks no index. It packs the folder `resolve`, with the
shared object and the program where they lie there."""
import base64
import hashlib
import os
import platform
import zipfile

HERE = os.path.dirname(os.path.abspath(__file__))
NAME, VERSION = "resolve_proved", "1"
INFO = f"{NAME}-{VERSION}.dist-info"
METADATA = f"""Metadata-Version: 2.1
Name: resolve-proved
Version: {VERSION}
Summary: A package resolver whose answers come with proofs
Requires-Python: >=3.9
"""


def get_requires_for_build_wheel(config_settings=None):
    return []


def packed():
    """Name in the wheel, content, and whether it is a program."""
    folder = os.path.join(HERE, "resolve")
    for name in sorted(os.listdir(folder)):
        path = os.path.join(folder, name)
        if os.path.isfile(path):
            with open(path, "rb") as file:
                yield f"resolve/{name}", file.read(), os.access(path, os.X_OK)


def record_line(name, content):
    digest = base64.urlsafe_b64encode(hashlib.sha256(content).digest()).rstrip(b"=").decode()
    return f"{name},sha256={digest},{len(content)}\n"


def build_wheel(wheel_directory, config_settings=None, metadata_directory=None):
    files = list(packed())
    native = any(not name.endswith((".py", "py.typed")) for name, _, _ in files)
    tag = f"py3-none-linux_{platform.machine()}" if native else "py3-none-any"
    wheel = f"Wheel-Version: 1.0\nGenerator: build_wheel\nRoot-Is-Purelib: {str(not native).lower()}\nTag: {tag}\n"
    files += [(f"{INFO}/METADATA", METADATA.encode(), False), (f"{INFO}/WHEEL", wheel.encode(), False)]
    record = "".join(record_line(name, content) for name, content, _ in files) + f"{INFO}/RECORD,,\n"
    files.append((f"{INFO}/RECORD", record.encode(), False))
    file_name = f"{NAME}-{VERSION}-{tag}.whl"
    with zipfile.ZipFile(os.path.join(wheel_directory, file_name), "w", zipfile.ZIP_DEFLATED) as out:
        for name, content, is_program in files:
            entry = zipfile.ZipInfo(name, (1980, 1, 1, 0, 0, 0))
            entry.external_attr = (0o755 if is_program else 0o644) << 16
            entry.compress_type = zipfile.ZIP_DEFLATED
            out.writestr(entry, content)
    return file_name
