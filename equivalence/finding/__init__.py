"""Finds the register mapping: learns it from a play, and proves it."""
