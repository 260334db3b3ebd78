"""The program `desk-change-base`."""

from desk_tools.change_program import changing


def main() -> int:
    return changing("base")
