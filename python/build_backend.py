"""The build backend that pyproject.toml names: makes a wheel of the package, its type marker and the shared library.

The hooks are those of PEP 517. The form of a wheel is described at
https://packaging.python.org/en/latest/specifications/binary-distribution-format/"""

import base64
import hashlib
import re
import subprocess
import sysconfig
import tempfile
import zipfile
from pathlib import Path
from typing import Any, NoReturn, Optional

HERE = Path(__file__).resolve().parent
PACKAGE = HERE / "malluvom"

METADATA = """\
Metadata-Version: 2.1
Name: malluvom
Version: {version}
Summary: A proved judge of CXL0 logs
License: MIT
Requires-Python: >=3.9
Description-Content-Type: text/markdown

{readme}"""

# The library knows nothing of Python, so that one wheel serves every version of it.
WHEEL = """\
Wheel-Version: 1.0
Generator: malluvom build_backend
Root-Is-Purelib: false
Tag: {tag}
"""


class UnsupportedOperation(Exception):
    """What a frontend expects of a hook that cannot be served."""


def build_sdist(sdist_directory: str, config_settings: Optional[dict[str, Any]] = None) -> NoReturn:
    raise UnsupportedOperation("the library is built from the whole repository: install from a checkout of it")


def build_wheel(
    wheel_directory: str, config_settings: Optional[dict[str, Any]] = None, metadata_directory: Optional[str] = None
) -> str:
    code = (PACKAGE / "__init__.py").read_text(encoding="utf-8")
    [version] = re.findall('^__version__ = "(.+)"$', code, re.MULTILINE)
    tag = "py3-none-" + re.sub(r"\W", "_", sysconfig.get_platform())
    info = f"malluvom-{version}.dist-info"
    sources = [*sorted(PACKAGE.glob("*.py")), PACKAGE / "py.typed"]
    files = {f"malluvom/{path.name}": path.read_bytes() for path in sources}
    files["malluvom/libcxl0.so"] = _shared_library()
    files[f"{info}/LICENSE"] = (HERE.parent / "LICENSE").read_bytes()
    readme = (HERE / "README.md").read_text(encoding="utf-8")
    files[f"{info}/METADATA"] = METADATA.format(version=version, readme=readme).encode()
    files[f"{info}/WHEEL"] = WHEEL.format(tag=tag).encode()
    record = "".join(f"{name},{_hash(data)},{len(data)}\n" for name, data in files.items())
    files[f"{info}/RECORD"] = f"{record}{info}/RECORD,,\n".encode()
    wheel = f"malluvom-{version}-{tag}.whl"
    with zipfile.ZipFile(Path(wheel_directory, wheel), "w", zipfile.ZIP_DEFLATED) as archive:
        for name, data in files.items():
            # An entry has the date 1980-01-01, so that the same files always make the same wheel.
            entry = zipfile.ZipInfo(name)
            entry.compress_type = zipfile.ZIP_DEFLATED
            entry.external_attr = 0o644 << 16
            archive.writestr(entry, data)
    return wheel


def _shared_library() -> bytes:
    with tempfile.TemporaryDirectory() as folder:
        file = Path(folder, "libcxl0.so")
        subprocess.run(["bash", str(HERE / "build.sh"), str(file)], check=True)
        return file.read_bytes()


def _hash(data: bytes) -> str:
    return "sha256=" + base64.urlsafe_b64encode(hashlib.sha256(data).digest()).rstrip(b"=").decode()
