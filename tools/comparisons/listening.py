"""Where a store that was started says that it listens."""


def address_told(process):
    """The address that it tells on standard error before anything else, or none where it ended."""
    words = process.stderr.readline().decode().split(",")[0].split()
    return words[-1] if words else None
