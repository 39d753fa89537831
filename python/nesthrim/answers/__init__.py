"""Answers of the program as objects."""
