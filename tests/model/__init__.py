"""A model of ctangle, wmerge and wdep, written from the rules alone. README.md tells its use."""
