"""The version of the package, which is that of the header arrowflow.h and of the library that it calls."""

VERSION = "0.1.0"
