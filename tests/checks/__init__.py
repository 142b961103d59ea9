"""Tests a built icrun and what stands beside it, without the kit."""
