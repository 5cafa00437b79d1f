"""What `hikebox advise` finds: which limit to take, by storms in which the peer fails in several ways."""
