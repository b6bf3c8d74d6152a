"""The gate: proves, tests and runs everything, from a clean clone, and fails if a part fails.

    ./x gate     the parts of .ci/run, in order

It needs `rt`. Each part says what else it needs, and names what it skips if this machine lacks it.
"""

from kiblawen import common


def main(words):
    common.parser(__name__, __doc__).parse_args(words)
    common.become("sh", common.at_top(".ci", "run"))
