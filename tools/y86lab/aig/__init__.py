"""AIGER files of `y86 aig`, for outside solvers."""
