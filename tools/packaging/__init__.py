"""How tools/package makes the Debian package."""
