"""The program `hikebox`: its commands and its options."""
