"""Names the machine that a table was measured on."""

import os
import re


def described():
    """The machine's cores and their clock speed."""
    with open("/proc/cpuinfo") as file:
        speeds = re.findall(r"^cpu MHz\s*: ([\d.]+)", file.read(), re.M)
    speed = f"{max(map(float, speeds)) / 1000:.1f} GHz" if speeds else "unknown speed"
    return f"{os.cpu_count()} cores of {speed}"
