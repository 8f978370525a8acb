"""What pyproject.toml can't say: pip puts the clients of sdstored, which are beside the package here, into it. In a
checkout the library that bindings/build made goes into the folder lib of the environment, where the package finds it,
and the wheel is one for this system."""

from os.path import relpath
from pathlib import Path
from sysconfig import get_platform

from setuptools import setup
from setuptools.command.build_py import build_py

HERE = Path(__file__).resolve().parent
# (beside a folder of another name anybody may have put a library)
MADE = HERE.parent.glob("out/libhudarin.so.*") if HERE.parts[-2:] == ("bindings", "python") else ()
LIBRARY = [relpath(file, HERE) for file in MADE]


class WithClients(build_py):
    """Builds the package, with hudarin/client.py."""

    def run(self) -> None:
        super().run()
        if not getattr(self, "editable_mode", False):
            self.copy_file("client.py", str(Path(self.build_lib, "hudarin", "client.py")))


OF_THIS_SYSTEM = {"bdist_wheel": {"python_tag": "py3", "plat_name": get_platform()}}
setup(
    cmdclass={"build_py": WithClients},
    data_files=[("lib", LIBRARY)] if LIBRARY else None,
    options=OF_THIS_SYSTEM if LIBRARY else {},
)
