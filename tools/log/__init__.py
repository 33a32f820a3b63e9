"""The file format: `writing` encodes it by docs/FORMAT.md, `reading` decodes it by docs/RULES.md."""
