"""The parts of bin/package and bin/try-package."""
