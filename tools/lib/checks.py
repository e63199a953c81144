"""The checks of pages and sources that need neither a proof nor a compiled program: each is a command in tools/, which ends with 0 if all is well."""

PAGES = ("docs/names_in_docs", "docs/commands_in_docs", "docs/counts_in_docs", "docs/links", "docs/cells", "docs/definitions.py --check", "docs/proof_map", "docs/numbers", "docs/words", "lint/one_name", "lint/imports", "lint/contract_lines", "suite check")
