"""Builds, releases and installs the programs."""
