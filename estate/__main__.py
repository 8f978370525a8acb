"""Runs estate: python3 FOLDER COMMAND .., where FOLDER has this file."""

import sys
from pathlib import Path

_HERE = Path(__file__).resolve().parent
#: Where the module hudarin is: in a checkout, or in an installation, whose share/hudarin/estate this folder is.
_MODULES = (_HERE.parent / "bindings/python", *sorted((_HERE.parents[2] / "lib").glob("python3*/*-packages")))

sys.path[1:1] = [str(folder) for folder in _MODULES if folder.is_dir()]

from command_line import main  # noqa: E402 (it requires the modules of these folders)

if __name__ == "__main__":
    sys.exit(main())
