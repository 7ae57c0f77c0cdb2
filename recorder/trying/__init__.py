"""The parts of fuse-try."""
