"""What `pip` asks to build this package: hatchling, as Debian has it (python3-hatchling). Where pip
hides the packages of the system from a build, it is found there all the same, so that nothing is
loaded from anywhere."""

import sys

DEBIAN = "/usr/lib/python3/dist-packages"

try:
    import hatchling.build
except ImportError:
    sys.path.append(DEBIAN)
    try:
        import hatchling.build
    except ImportError:
        sys.exit("hatchling is missing, which builds this package: apt install python3-hatchling")

build_wheel = hatchling.build.build_wheel
