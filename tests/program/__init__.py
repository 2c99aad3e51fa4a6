"""Tests of the built program, and of its launcher: each script runs it as its users do."""
