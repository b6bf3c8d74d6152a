"""Checks that files which repeat the version agree with VERSION, and that the pages name the logic of the toolchain on this machine.

    ./x version     prints both; the status is 1 if a file names another one
"""

import re
import subprocess

from kiblawen import common


def main(words):
    common.parser(__name__, __doc__).parse_args(words)
    version = common.version()
    kit = subprocess.run(["rt", "version"], stdout=subprocess.PIPE, check=False).stdout.decode().strip()
    # Kits of several names have one logic.
    logic = "".join(re.findall(r"logic \w+", kit)[:1])
    numbers = zip(("MAJOR", "MINOR", "PATCH"), version.split("."))
    named = (
        ("CHANGELOG.md", f"## {version}"),
        ("man/sf_tool.1", f"Kiblawen {version}"),
        ("man/kiblawen-add.1", f"Kiblawen {version}"),
        ("man/kiblawen-core.1", f"Kiblawen {version}"),
        ("include/kiblawen.h", f'#define KIBLAWEN_VERSION_STRING "{version}"'),
        *(("include/kiblawen.h", f"#define KIBLAWEN_VERSION_{part} {number}") for part, number in numbers),
        ("README.md", logic),
        ("docs/proof.md", logic),
    )
    failed = 0
    for name, text in named:
        with open(common.at_top(name), encoding="utf-8") as file:
            if not text or not re.search(rf"{re.escape(text)}(?!\w)", file.read()):
                failed = 1
                print(f"FAILED {name} does not say: {text}")
    if not failed:
        print(f"version {version}, {kit}")
    return failed
