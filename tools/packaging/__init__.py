"""Makes what is installed: the completions for shells, the Debian package and the tarball. tools/ci/package_trial tries the package."""
