"""The engine: its library by ctypes, the structs of its calls, handles, and a retry step by step."""
