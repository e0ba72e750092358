"""Translates an object file of AArch64 to C, for page/translate."""
