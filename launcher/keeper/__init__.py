"""The keeper of a machine: it keeps nodes and leads, and takes commands. It proves nothing."""
