"""Makes the wheel of ddcmp.py for `pip install ./python`, and needs nothing else. The library that
DDCMP_LIBRARY names, or that c/build has made, goes into it, if there is one."""
import base64
import hashlib
import os
import re
import sysconfig
import zipfile

HOME = os.path.dirname(os.path.realpath(__file__))
METADATA = """Metadata-Version: 2.1
Name: ddcmp
Version: {}
Summary: Stations of DDCMP over the C library libddcmp
License: MIT
Requires-Python: >=3.9
"""
WHEEL = """Wheel-Version: 1.0
Generator: ddcmp
Root-Is-Purelib: {}
Tag: py3-none-{}
"""


def read(path):
    with open(path, "rb") as it:
        return it.read()


def build_wheel(wheel_directory, config_settings=None, metadata_directory=None):
    module, kind = read(f"{HOME}/ddcmp.py"), "any"
    version = re.search('^__version__ = "(.*)"$', module.decode(), re.M)[1]
    info, files = f"ddcmp-{version}.dist-info", {"ddcmp.py": module}
    built = f"{HOME}/../c/out/libddcmp.so"
    library = os.environ.get("DDCMP_LIBRARY") or (os.path.exists(built) and built)
    if library:
        files["ddcmp.libs/libddcmp.so.0"] = read(library)
        kind = re.sub("[-.]", "_", sysconfig.get_platform())
    for it in ("LICENSE", "NOTICES"):
        files[f"{info}/{it}"] = read(f"{HOME}/../{it}")
    files[f"{info}/METADATA"] = METADATA.format(version).encode()
    files[f"{info}/WHEEL"] = WHEEL.format(str(kind == "any").lower(), kind).encode()
    record = ""
    for name, text in files.items():
        sum_of = base64.urlsafe_b64encode(hashlib.sha256(text).digest()).decode().rstrip("=")
        record += f"{name},sha256={sum_of},{len(text)}\n"
    files[f"{info}/RECORD"] = f"{record}{info}/RECORD,,\n".encode()
    wheel = f"ddcmp-{version}-py3-none-{kind}.whl"
    with zipfile.ZipFile(f"{wheel_directory}/{wheel}", "w", zipfile.ZIP_DEFLATED) as made:
        for name, text in files.items():
            made.writestr(name, text)
    return wheel
