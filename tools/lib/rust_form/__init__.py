"""The crates as a cargo workspace: their Rattle text with the contracts left out, over a crate in place of the kit's std."""
