"""Builds of small sets of projects as plain code, and when an incremental one may be trusted."""
