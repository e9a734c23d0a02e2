"""Grading: submissions run over the cases of an exercise."""
