"""Reasoning about problems beside the programs: bounds, prices, sweeps over states, other engines and their proofs."""
