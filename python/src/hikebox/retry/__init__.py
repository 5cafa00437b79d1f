"""How a call is retried: the options of a `Retrying`, the progress of one retry, and what drives it."""
