"""Starts a tool of the package: python3 python/start.py lint bus.toml.

If the package cannot be loaded, that is told with status 70, which no tool has for a result."""
import sys

sys.dont_write_bytecode = True
try:
    from robus.__main__ import main
except KeyboardInterrupt:
    sys.exit(130)
except BaseException as fault:
    sys.stderr.write(f"robus: the tools cannot be loaded: {fault!r}\n")
    sys.exit(70)
if __name__ == "__main__":
    sys.exit(main())
