"""What went wrong, as a sentence for the operator."""


class SpoolError(Exception):
    pass
