"""The version of this package, as in the file VERSION; the library has to be of it too."""

VERSION = "1.0.0-rc6"
