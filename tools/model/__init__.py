"""A plain model of a session: what names mean in a workspace of crates, files, blocks and expansions, and which edits make a crate or a block stale.

It is written from the rules (docs/DECISIONS.md, docs/PROTOCOL.md) and shares nothing with the crates. It keeps scopes in
dictionaries, tries each import in each pass until a pass changes nothing, goes along globs by recursion, and tries each call
in each round. It looks for no ill-formed lines and no limits of sizes, and answers None to commands that it doesn't know.
"""
