"""Tests of the bridge from MiniZinc; `../test` runs them."""
