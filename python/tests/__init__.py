"""The tests of the package: `python3 -m unittest discover -t python -s python/tests`. They need libhuwekapo.so (`bash install.sh`)."""
