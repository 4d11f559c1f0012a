"""bitcoind's JSON-RPC over a `Bench`: who is let in, HTTP, requests, and the calls."""
