"""A service around one `dubp_node run`: it keeps the log of what changed the state, and answers wallets over HTTP."""
