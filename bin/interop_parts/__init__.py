"""The parts of bin/interop."""
