"""The traffic that an access log tells of: how many requests came in each second, and how long they took."""
