"""Makes the wheel of the package by the standard library alone, so that `pip install ./python` fetches nothing."""
import base64
import hashlib
import os
import tomllib
import zipfile

HERE = os.path.dirname(os.path.dirname(os.path.realpath(__file__)))


def project():
    with open(f"{HERE}/pyproject.toml", "rb") as it:
        return tomllib.load(it)["project"]


def metadata(about):
    return (
        f"Metadata-Version: 2.1\nName: {about['name']}\nVersion: {about['version']}\nSummary: {about['description']}\n"
        f"Requires-Python: {about['requires-python']}\n"
    )


def modules():
    """Each file of the package, with what it has."""
    for name in sorted(os.listdir(f"{HERE}/tilebench")):
        if name.endswith(".py") or name == "py.typed":
            with open(f"{HERE}/tilebench/{name}", "rb") as it:
                yield f"tilebench/{name}", it.read()


def made(folder, files):
    """A wheel of files, in a folder; answers its name."""
    about = project()
    info = f"{about['name']}-{about['version']}.dist-info"
    files = [
        *files,
        (f"{info}/METADATA", metadata(about).encode()),
        (
            f"{info}/WHEEL",
            b"Wheel-Version: 1.0\nGenerator: wheel_backend\n" b"Root-Is-Purelib: true\nTag: py3-none-any\n",
        ),
    ]
    record = ""
    for name, data in files:
        digest = base64.urlsafe_b64encode(hashlib.sha256(data).digest()).rstrip(b"=").decode()
        record += f"{name},sha256={digest},{len(data)}\n"
    wheel = f"{about['name']}-{about['version']}-py3-none-any.whl"
    with zipfile.ZipFile(f"{folder}/{wheel}", "w", zipfile.ZIP_DEFLATED) as it:
        for name, data in [*files, (f"{info}/RECORD", f"{record}{info}/RECORD,,\n".encode())]:
            it.writestr(name, data)
    return wheel


def build_wheel(wheel_directory, config_settings=None, metadata_directory=None):
    return made(wheel_directory, modules())


def build_editable(wheel_directory, config_settings=None, metadata_directory=None):
    return made(wheel_directory, [("tilebench.pth", f"{HERE}\n".encode())])
