"""Tests of the tools and the examples."""
