"""Modules that the test programs share."""
