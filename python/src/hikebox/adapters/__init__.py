"""Policies and limits for other libraries. Each module here wants the library that it is named after."""
