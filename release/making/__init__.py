"""Makes a release from the files that tests/all has proved and built."""
