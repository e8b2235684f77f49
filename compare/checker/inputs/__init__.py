"""Inputs, made from a seed: every function takes the `Random` that it draws from."""
