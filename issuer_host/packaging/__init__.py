"""Makes the Debian package of the proved program."""
