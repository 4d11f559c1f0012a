"""The scripts that read the sources. docs/, wrong/ and tests/ have thin ones, which call these.

`rattle` reads Rattle's text, `definitions` files of specs/, and `repository` finds files and crates.
"""
