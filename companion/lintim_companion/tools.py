"""What the tests of this package use beside what its commands use, as `companion/check` and
`./test --install` take it."""

from .registry import COMMANDS, MATPLOTLIB, NETWORKX, Package

BLACK, MYPY = Package("black", "black"), Package("mypy", "mypy")
NUMPY, PANDAS = Package("python3-numpy", "numpy"), Package("python3-pandas", "pandas")
PYTEST = Package("python3-pytest", "pytest")
HYPOTHESIS = Package("python3-hypothesis", "hypothesis")
SELENIUM = Package("python3-selenium", "selenium")
CHROMIUM = Package("chromium", program="chromium")
DRIVER = Package("chromium-driver", program="chromedriver")
SCRIPTS = tuple(Package(name, program=name) for name in ("shellcheck", "mandoc", "zsh", "fish"))
WHEEL = (
    Package("python3-hatchling", "hatchling"),
    Package("python3-pip", "pip"),
    Package("python3-venv", "ensurepip"),
)
STUDIES = (
    Package("snakemake", program="snakemake"),
    Package("jupyter-nbconvert", program="jupyter-nbconvert"),
    Package("python3-ipykernel", "ipykernel"),
)
PEER = (
    Package("sumo", program="sumo"),
    Package("sumo-tools"),
    Package("python3-pyproj", "pyproj"),
)
CLUSTER = (Package("slurm-wlm", program="slurmd"), Package("munge", program="munged"))

QUICK = (BLACK, MYPY, NUMPY, PANDAS, PYTEST, HYPOTHESIS, *SCRIPTS, *WHEEL, *STUDIES)
QUICK += (MATPLOTLIB, NETWORKX)
LONG = (SELENIUM, CHROMIUM, DRIVER, *CLUSTER, *PEER)


def packages(everything: bool) -> list[str]:
    """The packages of Debian that the tests use, sorted; with those of the long ones."""
    of_commands = [it for command in COMMANDS for it in command.packages]
    return sorted({it.apt for it in (*of_commands, *QUICK, *(LONG if everything else ()))})
