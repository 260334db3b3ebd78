"""Why something was not done."""


class Failed(Exception):
    """Nothing was done, or all is as before; the text says why."""


class Refused(Failed):
    """Several reasons at once, each for a person to mend."""

    def __init__(self, reasons: list[str]) -> None:
        super().__init__("; ".join(reasons))
        self.reasons = reasons
