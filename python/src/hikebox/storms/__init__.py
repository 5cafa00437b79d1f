"""Storms: their parameters, their texts and their pictures."""
