"""The version of the package, which is that of the library and of the program: as the file VERSION has it."""

__version__ = "4.0.0"
