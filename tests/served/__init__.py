"""The register over HTTP as scripts start and ask it."""
