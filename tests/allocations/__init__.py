"""Allocations that fail, each in turn."""
