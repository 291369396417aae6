"""The version of the package, which is that of the program that it was made for."""

VERSION = "1.1.0"
