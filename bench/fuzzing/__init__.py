"""Inputs that are made of the examples by changes, and what becomes of them."""
