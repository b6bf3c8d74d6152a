"""The commands of `./x`, one module for each, and what they share. They need only Python 3.8 and its own library."""
