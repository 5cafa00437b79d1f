"""What budgets and quotas are made of: passes of the engine, tickets, and what draws them for a retry."""
