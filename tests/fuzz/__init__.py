"""Webs for `differ`, and their runs by the programs and by the model."""
