"""The Python clients: of an installation those of the package hudarin, of a checkout the module beside it."""

try:
    from hudarin.client import Client, OtherStore, Rejected  # type: ignore[import]
except ImportError:
    from client import Client, OtherStore, Rejected

__all__ = ["Client", "OtherStore", "Rejected"]
