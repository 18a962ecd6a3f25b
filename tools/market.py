"""The package of this repository by its older name: `import market` with tools/ on the path is `import trading_networks`
with package/ on it, from anywhere. docs/NOTEBOOK.md says what is there, and how the package is installed."""
import pathlib
import sys

sys.path.insert(0, str(pathlib.Path(__file__).resolve().parent.parent / "package"))
from trading_networks import *  # noqa: E402,F401,F403
from trading_networks import __all__, __version__  # noqa: E402,F401
