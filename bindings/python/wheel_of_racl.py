"""Makes the wheel of the package racl (PEP 517), by Python alone: pip wheel --no-index bindings/python

It has the version of include/racl.h, and in it the shared object that RACL_LIBRARY names, or the one that `make library` left. Where
neither is there, the wheel has none, and the package finds the one that is installed.
"""
import base64
import hashlib
import os
import re
import zipfile

OWN = os.path.dirname(os.path.abspath(__file__))
TOP = os.path.dirname(os.path.dirname(OWN))
METADATA = """Metadata-Version: 2.1
Name: racl
Version: {version}
Summary: A verified stateful packet filter, over its library for C
Requires-Python: >=3.8
"""
WHEEL = """Wheel-Version: 1.0
Generator: wheel_of_racl
Root-Is-Purelib: {is_pure}
Tag: {tag}
"""


def contents(path):
    with open(path, "rb") as file:
        return file.read()


def version():
    return re.search(rb'^#define RACL_VERSION "(.*)"$', contents(f"{TOP}/include/racl.h"), re.M)[1].decode()


def library():
    """The shared object, or nothing."""
    named = os.environ.get("RACL_LIBRARY")
    built = f"{TOP}/out/library/libracl.so"
    return named or (built if os.path.exists(built) else None)


def build_wheel(wheel_directory, config_settings=None, metadata_directory=None):
    shared, information = library(), f"racl-{version()}.dist-info"
    tag = "py3-none-linux_x86_64" if shared else "py3-none-any"
    files = {f"racl/{it}": contents(f"{OWN}/racl/{it}") for it in ("__init__.py", "py.typed")}
    if shared:
        files["racl/libracl.so"] = contents(shared)
    files[f"{information}/METADATA"] = METADATA.format(version=version()).encode()
    files[f"{information}/WHEEL"] = WHEEL.format(is_pure=str(not shared).lower(), tag=tag).encode()
    digests = {it: base64.urlsafe_b64encode(hashlib.sha256(told).digest()).decode().rstrip("=") for it, told in files.items()}
    record = "".join(f"{it},sha256={digests[it]},{len(told)}\n" for it, told in files.items())
    files[f"{information}/RECORD"] = f"{record}{information}/RECORD,,\n".encode()
    name = f"racl-{version()}-{tag}.whl"
    with zipfile.ZipFile(f"{wheel_directory}/{name}", "w", zipfile.ZIP_DEFLATED) as wheel:
        for it, told in files.items():
            wheel.writestr(it, told)
    return name
