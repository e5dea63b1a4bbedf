"""Texts of dumps: files and parts of them, the header, and the lines of a body."""
